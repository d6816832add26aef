"""Wrong writers of document 02, W9: jobs written, and read into tables. All are held against the records of write_test. Those of OUT change
only what is written of a job that is taken; the others also what is judged."""
from wrong.planner import END7, END8

TAKEN = "        Ok(list) => (0, packed(&list)),\n"
FILL = "    room.fill(0);\n"
COPY = "    room[..bytes.len()].copy_from_slice(&bytes);\n"
SHORT_ROOM = "    if bytes.len() > room.len() {\n        (number, bytes) = (SHORT, vec![]);\n    }\n"
ROOM = "let mut room = vec![GARBAGE; length];\n"
VERSION = "if version > 15 || version == 1 && (corner, axis) != (0, 1) {\n        return Ok(Err(3));"
TOO_LARGE = "if width < 64 && value >= 1 << width {"
COUNT = "        self.put(name, width, n)?;\n        Ok(n)\n"
DOUBLE = "self.put(name, 64, plus_zero(bits))"
REFUSED = "        Err(n) => Ok(Err(n)),\n"
JUDGE = "    match job::read("
NARROW = "Err(1) if !whole => Ok(Err(6)),"
NO_COUNT = "self.tables.counts.get(self.counts).copied().unwrap_or(0)"
NO_COORDINATE = "self.tables.coordinates.get(self.coordinates).copied().unwrap_or(NONE)"
NO_AREA = "self.tables.areas.get(k).copied().unwrap_or(NONE)"
NO_ROW = "self.tables.rows.get(4 * k + i).copied().unwrap_or(0)"
TABLED = "t.rows.extend([p.quantity as u64, p.fill as u64, p.priority as u32 as u64, orientations]);"
FITS = "needs(t).iter().zip(lengths).all(|(&need, has)| need <= has)"
READ = "Ok(t) if fits(&t) => t,\n        read => {\n            let n = read.err().unwrap_or(SHORT);"
LOOPS = "    for outline in set {\n        t.counts.push(outline.len() as u64);\n"
SETS = "            table_set(&mut t, &o.apart);\n            table_set(&mut t, &o.inset);\n"
WIDTH = "let i = if job.fill_axis == 0 { 1 } else { 0 };"
POINTS = "            points += n;\n            if points > 512 {\n                return Err(6);\n            }\n"
MANY = "job.copies() > 4096"
WIDE = "width(&job) / resolution > 1e6"


def wrong(name, *edits):
    """Of write.rs, unless an edit names another file."""
    return ("W9", name, [edit if len(edit) == 3 else ("write", *edit) for edit in edits])


def out(name, change):
    """The fields of a job that is taken are changed before they are packed: Rust of a `list` that may be changed."""
    return wrong(name, (TAKEN, "        Ok(mut list) => {\n            " + change + "\n            (0, packed(&list))\n        }\n"))


def bytes_changed(name, change):
    """The same of its `bytes`, with `bits`, how many there are."""
    return wrong(name, (TAKEN, "        Ok(list) => {\n            let bits: usize = list.iter().map(|f| f.width).sum();\n"
                        "            let mut bytes = packed(&list);\n            " + change + "\n            (0, bytes)\n        }\n"))


def each(change):
    return "list.iter_mut().for_each(|f| " + change + ");"


def named(name, change):
    return each(f'if f.name == "{name}" {{ {change} }}')


def exchanged(one, other):
    """Two fields that follow one another."""
    return f'(1..list.len()).for_each(|i| if list[i].name == "{other}" && list[i - 1].name == "{one}" {{ list.swap(i - 1, i) }});'


def wraps(name, *more):
    """A number too large for its field is written as far as it fits."""
    return wrong(f"{name} too large wraps", (TOO_LARGE, TOO_LARGE.replace("if ", f'if name != "{name}" && ')), *more)


def short_first(name, where):
    """28 of all fields, whatever they are refused with."""
    return wrong(name, (SHORT_ROOM, SHORT_ROOM + "    let mut f = Fields { tables: t, list: vec![], counts: 0, coordinates: 0 };\n"
                        f"    if {where} && f.job().is_ok() && packed(&f.list).len() > room.len() {{\n        number = SHORT;\n    }}\n"))


def judged(name, test, number):
    """Refused before the reader judges."""
    return wrong(name, (JUDGE, f"    if {test} {{\n        return Ok(Err({number}));\n    }}\n" + JUDGE))


def version(name, test, number):
    """Refused before the version is judged."""
    return wrong(name, (VERSION, f"if {test} {{\n        return Ok(Err({number}));\n    }}\n    " + VERSION))


MASKED = (COUNT, COUNT.replace("Ok(n)", "Ok(n & ((1 << width) - 1))"))
OUT = [
    out("least significant bit first", each("f.value = f.value.reverse_bits() >> (64 - f.width)")),
    bytes_changed("each byte from its last bit", "bytes.iter_mut().for_each(|b| *b = b.reverse_bits());"),
    out("points in 9 bits", named("points", "f.width = 9")),
    out("points in 16 bits", named("points", "f.width = 16")),
    out("loops in 8 bits", named("loops", "f.width = 8")),
    out("quantity in 13 bits", named("quantity", "f.width = 13")),
    out("kinds in 6 bits", named("kinds", "f.width = 6")),
    out("orientations in 4 bits", named("orientations", "f.width = 4")),
    out("one point less written", named("points", "f.value -= 1")),
    out("fill before quantity", exchanged("quantity", "fill")),
    out("priority before fill", exchanged("fill", "priority")),
    out("orientations before the area", exchanged("area", "orientations")),
    out("resolution before the seed", exchanged("seed", "resolution")),
    out("a point's y before its x", exchanged("x", "y")),
    out("corner and axis exchanged", exchanged("corner", "axis")),
    out("axis turned", named("axis", "f.value = 1 - f.value")),
    out("priority without its sign", named("priority", "f.value &= 0x7fff_ffff")),
    out("seed in 63 bits", named("seed", "f.value &= u64::MAX >> 1")),
    out("rounds left out", named("rounds", "f.value = 0")),
    out("fill turned", named("fill", "f.value = 1 - f.value")),
    out("lower left along y as version 1",
        'if list[0].value == 2 && list[1].value == 0 && list[2].value == 1 { list[0].value = 1; list.drain(1..3); }'),
    out("version 1 as version 2",
        'if list[0].value == 1 { list[0].value = 2; list.insert(1, Field { name: "corner", width: 2, value: 0 }); '
        'list.insert(2, Field { name: "axis", width: 1, value: 1 }); }'),
    bytes_changed("filling bits set", "if bits % 8 > 0 { *bytes.last_mut().unwrap() |= 0xff >> (bits % 8); }"),
    bytes_changed("one byte more", "bytes.push(0);"),
    bytes_changed("one byte more where no bit fills", "if bits % 8 == 0 { bytes.push(0); }"),
    bytes_changed("the filled byte left out", "bytes.truncate(bits / 8);"),
]

# The room, and the order of the tests.
ROOMS = [
    wrong("the rest of the room left", (FILL, "    if number != 0 {\n        room.fill(0);\n    }\n")),
    wrong("the last byte of the room left", (FILL, "    let last = room.len().saturating_sub(1);\n    room[..last].fill(0);\n")),
    wrong("only one byte behind the job cleared",
          (FILL, "    let end = if number == 0 { room.len().min(bytes.len() + 1) } else { room.len() };\n    room[..end].fill(0);\n")),
    wrong("the room of a refused job left", (FILL, "    if number == 0 || number == SHORT {\n        room.fill(0);\n    }\n")),
    wrong("a short room left", (FILL, "    if number != SHORT {\n        room.fill(0);\n    }\n")),
    wrong("a short room holds what fits", (SHORT_ROOM, SHORT_ROOM.replace("(number, bytes) = (SHORT, vec![]);",
                                                                         "room.copy_from_slice(&bytes[..room.len()]);\n        return Ok((SHORT, 0));"))),
    wrong("a refused job leaves the fields before", (FILL, FILL + "    if number != 0 && number != SHORT {\n"
                                                    "        let mut f = Fields { tables: t, list: vec![], counts: 0, coordinates: 0 };\n"
                                                    "        let _ = f.header();\n        let head = packed(&f.list);\n"
                                                    "        let n = head.len().min(room.len());\n        room[..n].copy_from_slice(&head[..n]);\n    }\n")),
    wrong("28 where the room is exact", (SHORT_ROOM, SHORT_ROOM.replace("bytes.len() > room.len()", "number == 0 && bytes.len() >= room.len()"))),
    wrong("28 from two bytes short on", (SHORT_ROOM, "    if bytes.len() == room.len() + 1 {\n        bytes.pop();\n    }\n" + SHORT_ROOM)),
    wrong("28 answers the bytes that are needed", (SHORT_ROOM, SHORT_ROOM.replace("(number, bytes) = (SHORT, vec![]);",
                                                                                 "room.fill(0);\n        return Ok((SHORT, bytes.len()));"))),
    wrong("the room's length answered", ("Ok((number, bytes.len()))", "Ok((number, if number == 0 { room.len() } else { 0 }))")),
    short_first("28 tested first", "true"), short_first("28 before 7 and 8", "(number == 7 || number == 8)"), short_first("28 before 8", "number == 8"),
    wrong("8 before 7 of a given job", ("job", END7 + END8, END8 + END7)),
]

# What is refused, and with which number.
JUDGED = [
    version("6 for version 16", "version > 15", 6),
    wrong("version too large wraps", (VERSION, VERSION.replace("version > 15 || ", "")),
          (TOO_LARGE, TOO_LARGE.replace("if ", 'if name != "version" && '))),
    wrong("version 1 with another frame written", (VERSION, VERSION.replace(" || version == 1 && (corner, axis) != (0, 1)", ""))),
    wrong("version 1 from another corner written", (VERSION, VERSION.replace("(corner, axis) != (0, 1)", "axis != 1"))),
    wrong("version 1 along x written", (VERSION, VERSION.replace("(corner, axis) != (0, 1)", "corner != 0"))),
    version("version 1 with another frame is 6", "version == 1 && (corner, axis) != (0, 1)", 6),
    version("corner 9 of version 1 is 6", "version == 1 && (corner > 3 || axis > 1)", 6),
    version("corner and axis judged before the version", "corner > 3 || axis > 1", 6),
    wrong("version 3 taken", ("job", "2 => (reader.field(2)?", "2 | 3 => (reader.field(2)?"),
          ("        if version == 2 {\n", "        if version == 2 || version == 3 {\n")),
    wrong("too large is 1", (NARROW, "Err(1) if !whole => Ok(Err(1)),")),
    judged("too large before all other tests", "!whole && job::read(&packed(&fields.list)).err() != Some(3)", 6),
    wrong("4 for 5", (REFUSED, "        Err(5) => Ok(Err(4)),\n" + REFUSED)),
    wrong("5 for an infinity", ("job", "if !value.is_finite() {", "if value.is_nan() {")),
    wrong("6 for 7", (REFUSED, "        Err(7) => Ok(Err(6)),\n" + REFUSED)),
    wrong("4,096 copies refused", ("job", MANY, "job.copies() >= 4096")),
    wrong("4,097 copies taken", ("job", MANY, "job.copies() > 4097")),
    wrong("a million columns refused", ("job", WIDE, "width(&job) / resolution >= 1e6")),
    wrong("columns rounded down before 8", ("job", WIDE, "(width(&job) / resolution).floor() > 1e6")),
    wrong("8 by the width that is not framed", ("job", WIDTH, "let i = 0;")),
    wrong("8 by the sheet's height", ("job", WIDTH, "let i = 1;")),
    wrong("8 by the first loop", ("job", "job.sheet.iter().flatten()", "job.sheet[0].iter()")),
    wrong("512 points for each loop alone", ("job", POINTS, "")),
    wrong("512 points refused", ("job", "self.count(10, 3, 512)?", "self.count(10, 3, 511)?")),
    wrong("2 points taken", ("job", "self.count(10, 3, 512)?", "self.count(10, 2, 512)?")),
    wrong("65 loops taken", ("job", "self.count(7, 1, 64)?;\n        let mut set", "self.count(7, 1, 65)?;\n        let mut set")),
    wrong("17 orientations taken", ("job", "self.count(5, 1, 16)?", "self.count(5, 1, 17)?")),
    wrong("65 kinds taken", ("job", "let kinds = reader.count(7, 1, 64)?;", "let kinds = reader.count(7, 1, 65)?;")),
    wrong("no copy taken", ("job", "self.count(12, 1, 4095)?", "self.count(12, 0, 4095)?")),
    wrong("area below zero taken", ("job", "self.double(0.0, 1e12)?", "self.double(-1e12, 1e12)?")),
    wrong("area of 1e12 refused", ("job", "self.double(0.0, 1e12)?", "self.double(0.0, 9e11)?")),
    wrong("coordinates up to 1,000,000 taken", ("job", "self.double(-100_000.0, 100_000.0)", "self.double(-1e6, 1e6)")),
    wrong("resolution from 0 on taken", ("job", "reader.double(0.001, 10_000.0)?", "reader.double(0.0, 10_000.0)?")),
    wraps("rounds"), wraps("quantity"), wraps("fill"), wraps("priority"), wraps("corner"), wraps("axis"),
    wraps("kinds", ("(0..self.tables.header[3] as usize)", "(0..self.tables.header[3] as usize % 128)")),
    wraps("orientations", ("for _ in 0..2 * orientations {", "for _ in 0..2 * (orientations % 32) {")),
    wraps("loops", MASKED), wraps("points", MASKED),
]

# Minus zeros, missing slots, and tables of a job that is read.
TABLES = [
    wrong("minus zeros kept", (DOUBLE, "self.put(name, 64, bits)")),
    wrong("minus zero of an area kept", (DOUBLE, 'self.put(name, 64, if name == "area" { bits } else { plus_zero(bits) })')),
    wrong("minus zero of a y kept", (DOUBLE, 'self.put(name, 64, if name == "y" { bits } else { plus_zero(bits) })')),
    wrong("a minus zero refused", (DOUBLE, "self.put(name, 64, if bits == 1 << 63 { f64::MAX.to_bits() } else { bits })")),
    wrong("least numbers written as zero", (DOUBLE, "self.put(name, 64, if f64::from_bits(bits).is_subnormal() { 0 } else { plus_zero(bits) })")),
    wrong("a missing coordinate is 0", (NO_COORDINATE, NO_COORDINATE.replace("NONE", "0"))),
    wrong("a missing area is 0", (NO_AREA, NO_AREA.replace("NONE", "0"))),
    wrong("a missing count is 3", (NO_COUNT, NO_COUNT.replace("unwrap_or(0)", "unwrap_or(3)"))),
    wrong("a missing row is 1", (NO_ROW, NO_ROW.replace("unwrap_or(0)", "unwrap_or(1)"))),
    judged("a short table is 1", "fields.counts > t.counts.len() || fields.coordinates > t.coordinates.len()", 1),
    judged("slots behind the job are 2", "whole && fields.counts < t.counts.len()", 2),
    wrong("coordinates from the table's end", ("let bits = " + NO_COORDINATE, "let n = self.tables.coordinates.len();\n        let bits = "
                                               "self.tables.coordinates.get(n.saturating_sub(self.coordinates + 1)).copied().unwrap_or(NONE)")),
    wrong("read: priority with its sign", (TABLED, TABLED.replace("p.priority as u32 as u64", "p.priority as i64 as u64"))),
    wrong("read: orientations before the priority",
          (TABLED, TABLED.replace("p.priority as u32 as u64, orientations", "orientations, p.priority as u32 as u64"))),
    wrong("read: minus zeros kept", ("job", "Ok(if value == 0.0 { 0.0 } else { value })", "Ok(value)")),
    wrong("read: inset before apart", (SETS, "            table_set(&mut t, &o.inset);\n            table_set(&mut t, &o.apart);\n")),
    wrong("read: ends in place of points",
          (LOOPS, "    let mut end = 0;\n" + LOOPS.replace("outline.len()", "end").replace("{\n", "{\n        end += outline.len();\n"))),
    *(wrong(f"read: the room of {name} not tested", (FITS, FITS.replace(".all(|(&need, has)|", f".enumerate().all(|(i, (&need, has))| i == {i} ||")))
      for i, name in enumerate(("rows", "areas", "counts", "coordinates"))),
    wrong("read: 28 before the refusal", (READ, READ.replace("read.err()", "read.err().filter(|_| !lengths.contains(&0))"))),
    wrong("read: 28 where a room is exact", (FITS, FITS.replace("need <= has", "need < has"))),
]

WRITERS = OUT + ROOMS + JUDGED + TABLES
