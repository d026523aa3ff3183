"""Streams documents through an XML parser that the tests did not write, Python's own.

    rows.py FOLDER      reads each document NAME.xml there, and compares what it says with NAME.rows. Then it writes
                        `broken/`: 0001.xml with one thing wrong in each copy, for the schema to refuse.

The last line counts: 'N passed, M failed'.
"""

import copy
import datetime
import decimal
import pathlib
import re
import sys
import xml.etree.ElementTree as ET

SPACE = "{urn:mtconnect.org:MTConnectStreams:1.2}"
EPOCH = datetime.datetime(1970, 1, 1, tzinfo=datetime.timezone.utc)
GROUPS = ["Samples", "Events", "Condition"]


class Wrong(Exception):
    """What a document does not say as it should."""


def bare(element):
    """An element's name in the documents' name space."""
    if not element.tag.startswith(SPACE):
        raise Wrong(f"{element.tag} is of another name space")
    return element.tag[len(SPACE):]


def children(element, name):
    """The children, which all have this name."""
    for child in element:
        if bare(child) != name:
            raise Wrong(f"{bare(child)} in {bare(element)}")
    return list(element)


def attributes(element, names):
    """The values of exactly these attributes."""
    if sorted(element.attrib) != sorted(names):
        raise Wrong(f"{bare(element)} has {sorted(element.attrib)}")
    return [element.get(name) for name in names]


def number(text):
    if not re.fullmatch("0|[1-9][0-9]*", text):
        raise Wrong(f"a number {text!r}")
    return int(text)


def milliseconds(stamp):
    if not re.fullmatch(r"\d{4}-\d\d-\d\dT\d\d:\d\d:\d\d\.\d{3}Z", stamp):
        raise Wrong(f"a stamp {stamp!r}")
    since = datetime.datetime.strptime(stamp, "%Y-%m-%dT%H:%M:%S.%f%z") - EPOCH
    return (since.days * 86400 + since.seconds) * 1000 + since.microseconds // 1000


def value(row, group):
    """A row's value, in the words of the .rows files."""
    if group == "Condition":
        if bare(row) == "Unavailable":
            return "unavailable"
        return f"{bare(row).lower()} {number(row.get('nativeCode'))}"
    if row.text == "UNAVAILABLE":
        return "unavailable"
    if group == "Events":
        return f"event {number(row.text)}"
    return f"sample {int(decimal.Decimal(row.text).scaleb(3))}"


def row_line(row, index, under, group):
    names = ["dataItemId", "sequence", "timestamp"]
    kind = "-"
    if group == "Condition":
        names.append("type")
        if bare(row) != "Unavailable":
            names.append("nativeCode")
        kind = row.get("type")
    item, sequence, stamp = attributes(row, names)[:3]
    if not re.fullmatch("i[0-9]+", item) or list(row):
        raise Wrong(f"a row of {item}")
    columns = [index, under, group, bare(row), number(item[1:]), kind]
    columns += [number(sequence), milliseconds(stamp), value(row, group)]
    return "\t".join(map(str, columns))


def component_lines(component):
    under, name, known_as = attributes(component, ["component", "name", "componentId"])
    if under != name or not re.fullmatch("c[0-9]+", known_as):
        raise Wrong(f"a component {under} {name} {known_as}")
    places = [GROUPS.index(bare(group)) for group in component]
    if not places or places != sorted(set(places)):
        raise Wrong(f"groups {places}")
    for group in component:
        if len(group) == 0:
            raise Wrong(f"{bare(group)} without rows")
        for row in group:
            yield row_line(row, number(known_as[1:]), under, bare(group))


def lines(root):
    """What a document says, a line for its header and one for each row."""
    header, streams = root
    if [bare(root), bare(header), bare(streams)] != ["MTConnectStreams", "Header", "Streams"]:
        raise Wrong(f"{bare(root)} with {bare(header)} and {bare(streams)}")
    names = ["creationTime", "instanceId", "bufferSize", "nextSequence", "firstSequence", "lastSequence"]
    stamp, *numbers = attributes(header, names + ["sender", "version"])[:6]
    if [header.get("sender"), header.get("version")] != ["box", "1.2"]:
        raise Wrong("another sender or version")
    devices = children(streams, "DeviceStream")
    device = ""
    if devices:
        [only] = devices
        device, uuid = attributes(only, ["name", "uuid"])
        if device != uuid:
            raise Wrong(f"device {device} {uuid}")
    found = ["\t".join(map(str, [device, milliseconds(stamp), *map(number, numbers)]))]
    for one in devices:
        components = children(one, "ComponentStream")
        if not components:
            raise Wrong("a device without components")
        for component in components:
            found += component_lines(component)
    return found


def says(root, expected):
    """Whether the document says these lines, and why not."""
    try:
        found = lines(root)
    except (Wrong, ValueError, TypeError, decimal.InvalidOperation) as wrong:
        return str(wrong) or repr(wrong)
    if found == expected:
        return None
    for at, (one, other) in enumerate(zip(found, expected)):
        if one != other:
            return f"line {at + 1} is {one!r}, expected {other!r}"
    return f"{len(found)} lines, expected {len(expected)}"


# ---- changes to a document

def of(root, path):
    """The first element on a path, `*` for any."""
    names = ["*" if name == "*" else SPACE + name for name in path.split("/")]
    found = root if path == "." else root.find("/".join(names))
    assert found is not None, path
    return found


def without(path, name):
    def change(root):
        del of(root, path).attrib[name]
    return f"{path} without {name}", change


def put(path, name, text):
    def change(root):
        of(root, path).set(name, text)
    return f"{path} {name}={text!r}", change


def say(path, text):
    def change(root):
        of(root, path).text = text
    return f"{path} says {text!r}", change


def rename(path, name, space=SPACE):
    def change(root):
        of(root, path).tag = space + name
    return f"{path} is {space}{name}", change


def swap(path, one, other):
    def change(root):
        parent = of(root, path)
        parent[one], parent[other] = parent[other], parent[one]
    return f"{path}: {one} and {other} change places", change


def drop(path, at):
    def change(root):
        parent = of(root, path)
        parent.remove(parent[at])
    return f"{path} without its child {at}", change


def empty(path):
    def change(root):
        parent = of(root, path)
        for child in list(parent):
            parent.remove(child)
    return f"{path} is empty", change


def twice(path, at):
    def change(root):
        parent = of(root, path)
        parent.insert(at, copy.deepcopy(parent[at]))
    return f"{path} has its child {at} twice", change


def move(source, at, target):
    def change(root):
        parent = of(root, source)
        child = parent[at]
        parent.remove(child)
        of(root, target).append(child)
    return f"child {at} of {source} stands in {target}", change


DEVICE = "Streams/DeviceStream"
AXIS = DEVICE + "/ComponentStream[2]"
SAMPLE, EVENT = AXIS + "/Samples/Position", AXIS + "/Events/Execution"
LEVELS = [f"{AXIS}/Condition/{name}" for name in ["Normal", "Warning", "Fault"]]
NO_LEVEL = AXIS + "/Condition/Unavailable"
ROWS = [SAMPLE, EVENT, *LEVELS, NO_LEVEL]
HEADER = ["instanceId", "bufferSize", "nextSequence", "firstSequence", "lastSequence"]


def against_schema():
    """What the schema has to refuse: a name and a change for each."""
    yield from (without("Header", name) for name in HEADER + ["creationTime", "sender", "version"])
    yield from (without(DEVICE, name) for name in ["name", "uuid"])
    yield from (without(AXIS, name) for name in ["component", "name", "componentId"])
    yield from (without(row, name) for row in ROWS for name in ["dataItemId", "sequence", "timestamp"])
    yield from (without(row, name) for row in LEVELS for name in ["type", "nativeCode"])
    yield without(NO_LEVEL, "type")
    # name space, names and nesting
    yield rename(".", "MTConnectStreams", "{urn:mtconnect.org:MTConnectStreams:1.1}")
    yield rename(".", "MTConnectStreams", "")
    yield rename(".", "MTConnectDevices")
    yield rename(SAMPLE, "Position", "{urn:mtconnect.org:MTConnectStreams:1.1}")
    yield rename(SAMPLE, "NoTypeGivesThis")
    yield rename(NO_LEVEL, "Error")
    yield rename(NO_LEVEL, "Normal")
    yield rename(LEVELS[0], "Unavailable")
    yield rename(AXIS + "/Samples", "Conditions")
    yield swap(".", 0, 1)
    yield drop(".", 0)
    yield drop(".", 1)
    yield twice(".", 0)
    yield twice(".", 1)
    yield twice("Streams", 0)
    yield move(DEVICE, 0, "Streams")
    yield move(AXIS, 0, DEVICE)
    yield move(AXIS + "/Samples", 0, AXIS)
    # order of the groups, and groups, components and devices without rows
    yield from (swap(AXIS, one, other) for one, other in [(0, 1), (1, 2), (0, 2)])
    yield from (twice(AXIS, at) for at in range(3))
    yield from (empty(f"{AXIS}/{group}") for group in GROUPS)
    yield from (empty(path) for path in [AXIS, DEVICE])
    yield twice(DEVICE, 1)
    # rows of another group
    yield move(AXIS + "/Samples", 0, AXIS + "/Condition")
    yield move(AXIS + "/Condition", 0, AXIS + "/Samples")
    yield move(AXIS + "/Condition", 3, AXIS + "/Events")
    # forms of numbers, stamps, ids and values
    numbers = ["", "-1", "+1", "01", "1.0", "1e3", "x", "18446744073709551616"]
    yield from (put("Header", name, text) for name in HEADER for text in numbers)
    yield from (put(row, "sequence", text) for row in [SAMPLE, EVENT, NO_LEVEL] for text in numbers)
    stamps = ["", "1970-01-01T00:00:00Z", "1970-01-01T00:00:00.00Z", "1970-01-01T00:00:00.000",
              "1970-01-01T00:00:00.000+00:00", "1970-01-01 00:00:00.000Z", "1970-13-01T00:00:00.000Z",
              "2001-02-29T00:00:00.000Z", "1970-01-01T24:00:01.000Z", "1969-12-31T23:59:59.999Z",
              "2100-01-01T00:00:00.000Z"]
    yield from (put("Header", "creationTime", stamp) for stamp in stamps)
    yield from (put(row, "timestamp", stamp) for row in [SAMPLE, LEVELS[1]] for stamp in stamps)
    yield put("Header", "sender", "other")
    yield put("Header", "version", "1.3")
    yield from (put(row, "dataItemId", text) for row in [EVENT, NO_LEVEL] for text in ["", "1", "i", "i01", "x1"])
    yield from (put(AXIS, "componentId", text) for text in ["", "1", "c", "c01", "Linear", "c0"])
    yield from (put(LEVELS[2], "nativeCode", text) for text in ["", "-1", "00", "16777216", "x"])
    yield put(NO_LEVEL, "nativeCode", "0")
    yield from (put(LEVELS[0], "type", text) for text in ["", "a-b", "a b", "x" * 25])
    yield from (put(path, "name", "") for path in [DEVICE, AXIS])
    yield from (put(path, "other", "1") for path in ["Header", DEVICE, AXIS, SAMPLE, NO_LEVEL])
    yield put(SAMPLE, "type", "POSITION")
    values = ["", "5.0", "5.", ".5", "+5", "05", "-0", "1e3", "5.1234", "unavailable", " 5", "WARNING:77", "5,5"]
    yield from (say(row, text) for row in [SAMPLE, EVENT] for text in values)
    yield from (say(row, "x") for row in LEVELS + [NO_LEVEL])
    yield from (say(path, "x") for path in ["Header", "Streams", DEVICE, AXIS, AXIS + "/Samples"])


def against_rows():
    """What the comparison with the rows has to notice, though the schema need not."""
    yield from (put("Header", name, "77") for name in HEADER)
    yield put("Header", "creationTime", "1970-01-01T00:00:02.001Z")
    yield put(DEVICE, "name", "Other")
    yield put(DEVICE, "uuid", "Other")
    yield put(AXIS, "component", "Other")
    yield put(AXIS, "name", "Other")
    yield put(AXIS, "componentId", "c7")
    yield from (put(row, "dataItemId", "i7") for row in ROWS)
    yield from (put(row, "sequence", "77") for row in ROWS)
    yield from (put(row, "timestamp", "1970-01-01T00:00:01.011Z") for row in [SAMPLE, LEVELS[0], NO_LEVEL])
    yield put(EVENT, "timestamp", "1970-01-01T00:00:01.000Z")
    yield from (put(row, "type", "OTHER") for row in LEVELS + [NO_LEVEL])
    yield from (put(row, "nativeCode", "78") for row in LEVELS)
    yield rename(LEVELS[0], "Warning")
    yield rename(LEVELS[1], "Fault")
    yield rename(SAMPLE, "Execution")
    yield from (say(SAMPLE, text) for text in ["5.501", "-5.5", "UNAVAILABLE"])
    yield from (say(EVENT, text) for text in ["4", "UNAVAILABLE"])
    yield from (drop(path, 0) for path in [DEVICE, AXIS, AXIS + "/Condition"])
    yield from (twice(path, 0) for path in [AXIS + "/Samples", AXIS + "/Events", AXIS + "/Condition"])
    yield swap(AXIS + "/Condition", 0, 1)
    yield swap(DEVICE, 0, 1)
    yield move(AXIS + "/Samples", 0, AXIS + "/Events")
    yield move(AXIS + "/Samples", 0, DEVICE + "/ComponentStream[3]/Samples")


def changed(root, change):
    root = copy.deepcopy(root)
    change(root)
    return root


def main():
    folder = pathlib.Path(sys.argv[1])
    passed = failed = 0
    for path in sorted(folder.glob("*.xml")):
        expected = path.with_suffix(".rows").read_text("ascii").splitlines()
        try:
            wrong = says(ET.parse(path).getroot(), expected)
        except ET.ParseError as error:
            wrong = str(error)
        passed += wrong is None
        failed += wrong is not None
        if wrong is not None:
            print(f"FAILED: {path.name}: {wrong}")
    base = ET.parse(folder / "0001.xml").getroot()
    expected = (folder / "0001.rows").read_text("ascii").splitlines()
    for name, change in against_rows():
        noticed = says(changed(base, change), expected) is not None
        passed += noticed
        failed += not noticed
        if not noticed:
            print(f"FAILED: it is not noticed that {name}")
    broken = folder / "broken"
    broken.mkdir()
    names = []
    for name, change in against_schema():
        names.append(name)
        ET.ElementTree(changed(base, change)).write(broken / f"{len(names):04}.xml", encoding="UTF-8")
    (broken / "names").write_text("".join(f"{name}\n" for name in names))
    # The same without a change, so that it is the change that the schema refuses.
    ET.ElementTree(base).write(folder / "unchanged.xml", encoding="UTF-8")
    print(f"{passed} passed, {failed} failed")
    return failed > 0 or passed == 0


if __name__ == "__main__":
    sys.exit(main())
