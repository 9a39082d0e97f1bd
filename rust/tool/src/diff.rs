//! `diff`: what changed between two maps of one name, lump by lump and record by record.

use crate::about::About;
use crate::count::grouped;
use crate::json::Object;
use crate::judge;
use crate::name::{self, shown};
use crate::pair::{Base, Lent, Opened};
use crate::record::{Kind, KINDS};
use crate::report::Report;
use crate::verdict::{Game, Outcome, Source, Subject, Verdict};
use crate::wad::Wad;
use meshpigeon::{DifferenceFile, DifferenceRefusal, Differences};
use std::ffi::{OsStr, OsString};

/// The two files, the old one first.
struct Files<'a> {
    names: [&'a OsStr; 2],
    opened: [Opened<'a>; 2],
}

impl Files<'_> {
    fn wad(&self, file: DifferenceFile) -> &Wad {
        self.opened[at(file)].wad(Source::File)
    }

    fn name(&self, file: DifferenceFile) -> &OsStr {
        self.names[at(file)]
    }

    fn about(&self, file: DifferenceFile, report: &Report) -> About {
        self.opened[at(file)].about(self.name(file), report)
    }

    /// What a line about a map of a file begins with.
    fn heading(&self, file: DifferenceFile, map: &str) -> String {
        format!("{}:{}", name::file(self.name(file)), shown(map))
    }
}

fn at(file: DifferenceFile) -> usize {
    match file {
        DifferenceFile::Old => 0,
        DifferenceFile::New => 1,
    }
}

/// Compares the named maps of two files, or all that both have; then it says which maps one of them lacks.
pub fn run(old: &OsStr, new: &OsStr, maps: &[OsString], records: bool, report: &mut Report) {
    report.compare();
    let [Some(one), Some(other)] = [old, new].map(|file| open(file, report)) else { return };
    let files = Files { names: [old, new], opened: [one, other] };
    if !maps.is_empty() {
        return name::all_asked(maps).iter().for_each(|map| compare(&files, map, records, report));
    }
    let [mut of_old, mut of_new] = [DifferenceFile::Old, DifferenceFile::New].map(|file| files.wad(file).maps());
    if of_old.is_empty() && of_new.is_empty() {
        let (about, outcome) = (files.about(DifferenceFile::New, report), Outcome::NoMap("no map".to_string()));
        return report.verdict(&Verdict::plain(about, Subject::File, Source::File, outcome));
    }
    let both: Vec<Vec<u8>> = of_old.iter().filter(|map| of_new.contains(map)).cloned().collect();
    both.iter().for_each(|map| compare(&files, map, records, report));
    of_old.retain(|map| !both.contains(map));
    of_new.retain(|map| !both.contains(map));
    of_old.iter().for_each(|map| lacks(&files, map, DifferenceFile::Old, report));
    of_new.iter().for_each(|map| lacks(&files, map, DifferenceFile::New, report));
}

fn open(file: &OsStr, report: &mut Report) -> Option<Opened<'static>> {
    Opened::open(file, &Base::None).map_err(|(source, fault)| report.fault_of(About::unread(file), source, fault)).ok()
}

/// A map that one file alone has.
fn lacks(files: &Files, map: &[u8], file: DifferenceFile, report: &mut Report) {
    report.differs();
    let map = name::text(map);
    let word = if file == DifferenceFile::Old { "old" } else { "new" };
    report.answer(
        || format!("{}: only the {word} file has this map", files.heading(file, &map)),
        || answer(files, &map).number("number", None).text("only", word).count("count", None).objects("lumps", None).close(),
    );
}

/// What every answer begins with.
fn answer(files: &Files, map: &str) -> Object {
    let [old, new] = files.names;
    Object::about(new).text("old", old.to_string_lossy().as_ref()).text("map", map)
}

/// Compares the map of a name, or says why not: a refused map has the line that `judge` has of it.
fn compare(files: &Files, map: &[u8], records: bool, report: &mut Report) {
    let [old, new] = [DifferenceFile::Old, DifferenceFile::New].map(|file| files.wad(file));
    match meshpigeon::differences(old.bytes(), map, new.bytes(), map) {
        Ok(found) => tell(files, map, &changes(old, new, map, &found), records, report),
        Err(DifferenceRefusal { file: Some(file), .. }) => {
            let verdict = judge::verdict(&files.about(file, report), &files.opened[at(file)], map, &mut Lent::new());
            report.verdict(&verdict);
        }
        Err(DifferenceRefusal { file: None, refusal }) => {
            let (subject, outcome) = (Subject::Map(name::text(map)), Outcome::Refused(refusal, None));
            let about = files.about(DifferenceFile::New, report);
            report.verdict(&Verdict { game: new.game(map), ..Verdict::plain(about, subject, Source::File, outcome) });
        }
    }
}

/// What changed of one lump.
struct Change<'a> {
    kind: &'static Kind,
    hexen: bool,
    /// The old lump and the new one.
    lumps: [&'a [u8]; 2],
    /// The numbers of changed and of added records, and those of dropped ones.
    changed: Vec<usize>,
    added: Vec<usize>,
    dropped: Vec<usize>,
}

/// The changes of all lumps of two accepted maps of one game. The library lists what the new map has otherwise; what it lacks is behind its end.
fn changes<'a>(old: &'a Wad, new: &'a Wad, map: &[u8], found: &Differences) -> Vec<Change<'a>> {
    let hexen = new.game(map) == Some(Game::Hexen);
    let lump = |wad: &'a Wad, kind: &Kind| wad.marker(map).map_or(&[][..], |marker| wad.lump(marker + kind.place));
    let change = |kind: &'static Kind| {
        let lumps = [old, new].map(|wad| lump(wad, kind));
        let [before, after] = lumps.map(|lump| kind.count(lump, hexen));
        let listed = found.at(kind.place).iter().map(|&number| usize::from(number));
        let (changed, added) = listed.partition(|&number| number < before);
        Change { kind, hexen, lumps, changed, added, dropped: (after..before).collect() }
    };
    KINDS.iter().map(change).collect()
}

/// A record's number, and what became of it.
type Became = (usize, &'static str);

impl Change<'_> {
    /// How many records.
    fn count(&self) -> usize {
        self.changed.len() + self.added.len() + self.dropped.len()
    }

    /// All records: changed ones, then those that came or went.
    fn records(&self) -> impl Iterator<Item = Became> + '_ {
        let of = |numbers: &[usize], became| numbers.iter().map(|&number| (number, became)).collect::<Vec<Became>>();
        of(&self.changed, "changed").into_iter().chain(of(&self.added, "added")).chain(of(&self.dropped, "dropped"))
    }

    /// `LINEDEFS: 2 changed, 1 added, 0 dropped`.
    fn line(&self) -> String {
        let [changed, added, dropped] = [&self.changed, &self.added, &self.dropped].map(|it| grouped(it.len() as i128));
        format!("{}: {changed} changed, {added} added, {dropped} dropped", self.kind.name)
    }

    /// `LINEDEFS 5 changed: special 0 -> 12`; of a record that came or went all fields.
    fn record_line(&self, (number, became): Became) -> String {
        let words = match self.lumps.map(|lump| self.kind.read(lump, number, self.hexen)) {
            [Some(before), Some(after)] => before.changes(&after),
            [one, other] => one.or(other).map_or(String::new(), |fields| fields.words()),
        };
        format!("{} {number} {became}: {words}", self.kind.name)
    }

    fn json(&self, records: bool) -> Object {
        let object = Object::new().text("lump", self.kind.name).count("changed", self.changed.len());
        let object = object.count("added", self.added.len()).count("dropped", self.dropped.len());
        match records {
            false => object,
            true => object.objects("records", Some(self.records().map(|record| self.record_json(record)).collect())),
        }
    }

    fn record_json(&self, (number, became): Became) -> Object {
        let [before, after] = self.lumps.map(|lump| self.kind.read(lump, number, self.hexen).map(|fields| fields.json()));
        Object::new().count("record", number).text("became", became).object("before", before).object("after", after)
    }
}

fn tell(files: &Files, map: &[u8], changes: &[Change], records: bool, report: &mut Report) {
    let (map, count) = (name::text(map), changes.iter().map(Change::count).sum::<usize>());
    let heading = files.heading(DifferenceFile::New, &map);
    if count > 0 {
        report.differs();
    }
    let json = || {
        let lumps = changes.iter().map(|change| change.json(records)).collect();
        answer(files, &map).number("number", 0).text("only", None).count("count", count).objects("lumps", Some(lumps)).close()
    };
    let text = || {
        let differing = changes.iter().filter(|change| change.count() > 0);
        let of = |change: &Change| {
            let numbers = change.records().filter(|_| records).map(|record| change.record_line(record));
            [change.line()].into_iter().chain(numbers).collect::<Vec<String>>()
        };
        let lines: Vec<String> = differing.flat_map(of).map(|line| format!("{heading}: {line}")).collect();
        match count {
            0 => format!("{heading}: the same records"),
            _ => lines.join("\n"),
        }
    };
    report.answer(text, json);
}
