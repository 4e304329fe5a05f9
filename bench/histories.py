#!/usr/bin/env python3
"""Writes a release history of a kind and a size to standard output: `histories.py KIND SIZE`.

SIZE is in bytes, or with a K or an M behind it in KiB or MiB. The document is as long as whole entries let it be, or where
fields come with their spellings whole units of these.
"""

import json
import sys

FIRST, LAST = "1.1", "1.20"
ARRAYS = ["gate", "api", "field", "spell"]
FIELDS_OF_A_RESOURCE = 64


def gate(name, since, change):
    return f' {{name="{name}", since="1.{since}", {change}}},\n'


def api(group, version, resource, since, event):
    return f' {{group="{group}", version="{version}", resource="{resource}", since="1.{since}", event="{event}'


def introduced(group, version, resource, since, enabled="true"):
    kind = resource.capitalize()
    return (
        api(group, version, resource, since, "introduced")
        + f'", kind="{kind}", singular="{resource}", namespaced=true, enabled={enabled}}},\n'
    )


def deprecated(group, version, resource, since, removal, replacement):
    return api(group, version, resource, since, "deprecated") + f'", removal="1.{removal}", replacement="{replacement}"}},\n'


def removed(group, version, resource, since):
    return api(group, version, resource, since, "removed") + '"},\n'


def forgotten(group, version, resource, since):
    return api(group, version, resource, since, "forgotten") + '"},\n'


def prerelease_words():
    """The words of all alpha and beta versions, which are 1,996,002."""
    for major in range(1, 1000):
        for number in range(1, 1000):
            yield f"v{major}beta{number}"
            yield f"v{major}alpha{number}"


def lawful(index):
    """The entries of the resource with this number, ten resources a group: a beta version from its beginning to its end,
    and the version that follows it."""
    group, resource = f"team{index // 10}.example", f"item{index}"
    yield introduced(group, "v1beta1", resource, 1)
    yield introduced(group, "v1", resource, 3)
    yield deprecated(group, "v1beta1", resource, 3, 6, "v1")
    yield removed(group, "v1beta1", resource, 6)
    yield forgotten(group, "v1beta1", resource, 9)


def lawful_entries():
    index = 0
    while True:
        yield from lawful(index)
        index += 1


def one_gate_entries():
    """One gate, which rises by a release an entry up to 1.999, and stays there: from entry 1001 on each breaks HR3."""
    since = 0
    while True:
        yield gate("OneGate", min(since, 999), 'stage="BETA", default=true')
        since += 1


def gate_entries():
    """Gates of one entry each, spread over the releases."""
    index = 0
    while True:
        yield gate(f"Gate{index}", index % 20 + 1, 'stage="BETA", default=true')
        index += 1


def version_entries():
    for word in prerelease_words():
        yield introduced("demo.example", word, "widgets", 1)


def resource_entries():
    index = 0
    while True:
        yield introduced("demo.example", "v1", f"widgets{index}", 1)
        index += 1


def group_entries():
    """Groups of one version and one resource each."""
    index = 0
    while True:
        yield introduced(f"group{index}.example", "v1", "widgets", 1)
        index += 1


def replaced(word):
    """A version that is deprecated in favour of v1, removed and forgotten."""
    yield introduced("demo.example", word, "widgets", 1)
    yield deprecated("demo.example", word, "widgets", 2, 5, "v1")
    yield removed("demo.example", word, "widgets", 5)
    yield forgotten("demo.example", word, "widgets", 8)


def replaced_entries():
    for word in prerelease_words():
        yield from replaced(word)


def one_replacement():
    """v2 stands first; behind the others v1 is deprecated in favour of it, removed, and forgotten after all of them."""
    before = [
        introduced("demo.example", "v1", "widgets", 1),
        introduced("demo.example", "v2", "widgets", 1),
    ]
    after = [
        deprecated("demo.example", "v1", "widgets", 6, 9, "v2"),
        removed("demo.example", "v1", "widgets", 9),
        forgotten("demo.example", "v1", "widgets", 12),
    ]
    return of_api(before), single("api", replaced_entries()), of_api(after)


def bad_last():
    """The last member of the last entry isn't a boolean."""
    return [], single("api", lawful_entries()), of_api([introduced("last.example", "v1", "widgets", 1, enabled='"no"')])


def field(group, resource, name, since):
    return f' {{group="{group}", resource="{resource}", id="{name}", since="1.{since}", type="Text"}},\n'


def spelling(group, version, resource, name, since, path=None):
    """A spelling deep in one object, so that paths differ at their ends alone, or with the given value as its path."""
    here = f'group="{group}", resource="{resource}", version="{version}"'
    path = path or f'"a.b.c.d.e.f.g.{name}"'
    return f' {{{here}, field="{name}", since="1.{since}", path={path}}},\n'


def field_with_spellings(group, resource, name, versions, since=1):
    yield "field", field(group, resource, name, since)
    for version in versions:
        yield "spell", spelling(group, version, resource, name, since)


def field_units():
    """Resources of four versions and 64 fields each."""
    versions = ["v1alpha1", "v1beta1", "v1beta2", "v1"]
    index = 0
    while True:
        group, resource = f"team{index // 10}.example", f"item{index}"
        unit = of_api(introduced(group, version, resource, 1) for version in versions)
        for number in range(FIELDS_OF_A_RESOURCE):
            unit.extend(field_with_spellings(group, resource, f"f{number}", versions))
            yield unit
            unit = []
        index += 1


def bad_spelling():
    """The path of the last spelling isn't a text."""
    return [], field_units(), [("spell", spelling("last.example", "v1", "widgets", "size", 1, path="1"))]


def one_field_units():
    """Resources of one version and one field each."""
    index = 0
    while True:
        group, resource = f"team{index // 10}.example", f"item{index}"
        unit = of_api([introduced(group, "v1", resource, 1)])
        unit.extend(field_with_spellings(group, resource, "size", ["v1"]))
        yield unit
        index += 1


def spelled_version_units():
    """Versions of one resource, which spell its two fields."""
    names = ["size", "color"]
    unit = [("field", field("demo.example", "widgets", name, 1)) for name in names]
    for word in prerelease_words():
        unit.append(("api", introduced("demo.example", word, "widgets", 1)))
        unit.extend(("spell", spelling("demo.example", word, "widgets", name, 1)) for name in names)
        yield unit
        unit = []


def forgotten_versions():
    """One resource whose 64 fields come when all its versions but v1 are forgotten."""
    before = of_api([introduced("demo.example", "v1", "widgets", 1)])
    for number in range(FIELDS_OF_A_RESOURCE):
        before.extend(field_with_spellings("demo.example", "widgets", f"f{number}", ["v1"], since=8))
    return before, (of_api(replaced(word)) for word in prerelease_words()), []


def of_api(entries):
    return [("api", entry) for entry in entries]


def single(array, entries):
    """Units of one entry each."""
    return ([(array, entry)] for entry in entries)


# For each kind what stands first, the units of which as many are taken as fit, and what stands last. A unit is a list of
# arrays with an entry each.
KINDS = {
    "lawful": lambda: ([], single("api", lawful_entries()), []),
    "gates": lambda: ([], single("gate", gate_entries()), []),
    "one_gate": lambda: ([], single("gate", one_gate_entries()), []),
    "versions": lambda: ([], single("api", version_entries()), []),
    "resources": lambda: ([], single("api", resource_entries()), []),
    "groups": lambda: ([], single("api", group_entries()), []),
    "one_replacement": one_replacement,
    "bad_last": bad_last,
    "fields": lambda: ([], field_units(), []),
    "bad_spelling": bad_spelling,
    "one_field": lambda: ([], one_field_units(), []),
    "spelled_versions": lambda: ([], spelled_version_units(), []),
    "forgotten_versions": forgotten_versions,
}


# The version that an object of a kind of history is in and is to be shown in, and its kind; and the fields that it has.
OBJECTS = {
    "lawful": ("team0.example/v1", "Item0"),
    "versions": ("demo.example/v1beta1", "Widgets"),
    "resources": ("demo.example/v1", "Widgets0"),
    "groups": ("group0.example/v1", "Widgets"),
    "one_replacement": ("demo.example/v2", "Widgets"),
    "fields": ("team0.example/v1", "Item0"),
    "one_field": ("team0.example/v1", "Item0"),
    "spelled_versions": ("demo.example/v1beta1", "Widgets"),
    "forgotten_versions": ("demo.example/v1", "Widgets"),
}
FIELDS = {
    "fields": [f"f{number}" for number in range(FIELDS_OF_A_RESOURCE)],
    "one_field": ["size"],
    "spelled_versions": ["size", "color"],
    "forgotten_versions": [f"f{number}" for number in range(FIELDS_OF_A_RESOURCE)],
}


def object_words(kind):
    """The options of `convert` for an object with all fields of its resource, or for one that the history doesn't know."""
    version, name = OBJECTS.get(kind, ("demo.example/v1", "Widgets"))
    value = {field: "x" for field in FIELDS.get(kind, [])}
    for segment in reversed("abcdefg"):
        value = {segment: value} if value else value
    value.update(apiVersion=version, kind=name)
    return [f"--to={version}", f"--object={json.dumps(value)}"]


def framed(array, entries):
    return f"{array} = [\n{entries}]\n"


def document(kind, unit):
    """The document of these entries, each behind those of its array."""
    last = "1.999" if kind == "one_gate" else LAST
    text = f'first = "{FIRST}"\nlast = "{last}"\n'
    for name in ARRAYS:
        entries = "".join(entry for array, entry in unit if array == name)
        text += framed(name, entries) if entries else ""
    return text


def history(kind, size):
    """The document, of at most this many bytes."""
    before, units, after = KINDS[kind]()
    length = len(document(kind, before + after))
    used = {array for array, _ in before + after}
    taken = []
    for unit in units:
        new = {array for array, _ in unit} - used
        length += sum(len(entry) for _, entry in unit) + sum(len(framed(array, "")) for array in new)
        if length > size:
            break
        used |= new
        taken.extend(unit)
    return document(kind, before + taken + after)


def bytes_of(text):
    units = {"K": 1024, "M": 1024 * 1024}
    return int(text[:-1]) * units[text[-1]] if text[-1:] in units else int(text)


def main():
    if len(sys.argv) != 3 or sys.argv[1] not in KINDS:
        sys.exit(f"usage: histories.py KIND SIZE\nkinds: {' '.join(KINDS)}")
    sys.stdout.write(history(sys.argv[1], bytes_of(sys.argv[2])))


if __name__ == "__main__":
    main()
