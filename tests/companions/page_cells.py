"""Compares what a page has of the cells of a table with the plain reading: generators, matrices, ranks and dimensions.

`page.py` runs this for its pages.
"""
import plain.cube
import plain.diagrams


def labels_of(text):
    """A generator as it is written: the state, and the label of each circle, 1 for v-."""
    state, _, signs = text.partition(":")
    return ("" if state == "the one state" else state), tuple(int(it != "+") for it in signs.split())


def plain_labels(code, generator):
    state, label = generator
    count = len(plain.cube.circles(code, state))
    return "".join(str(state >> at & 1) for at in range(len(code.crossings))), tuple(label >> at & 1 for at in range(count))


def matrices_fault(root, diagram):
    """Each cell has its generators, the matrices into it and out of it with the plain reading's entries, and ranks and dimensions over all
    fields."""
    code, blocks = plain.diagrams.code_of(diagram), plain.cube.blocks(diagram)
    ranks = {field: dict(plain.cube.ranks(diagram, field)) for field in (2, 3, 5, 7)}
    cells = list(root.all("dl", class_="cells"))
    for cell in (it for them in cells for it in them.all("div") if "id" in it.attributes and list(it.all("div", class_="work"))):
        j, i = map(int, cell.attributes["id"].split("_")[1:])
        names = (it.text() for them in cell.all("ol", class_="generators") for it in them.all("span"))
        listed = [labels_of(it) for it in names if ":" in it]
        wanted = [plain_labels(code, it) for it in blocks[j][i]]
        if len(wanted) <= 40 and sorted(listed) != sorted(it for it in wanted if it[1]):
            return f"{(j, i)}: {listed} and not {wanted}"
        for table in cell.all("table", class_="matrix"):
            degree = i - 1 if "into" in table.one("caption").text() else i
            columns = [labels_of(it.text()) for it in table.one("thead").all("th")]
            found = {}
            for row in table.one("tbody").all("tr"):
                entries = [int(it.text().replace("\u2212", "-")) for it in row.all("td")]
                found.update({(labels_of(row.one("th").text()), at): one for at, one in zip(columns, entries) if one})
            if found != plain_entries(code, blocks[j], degree):
                return f"{(j, i)}: the matrix at {degree}"
        for row in cell.one("table", class_="ranks").one("tbody").all("tr"):
            field = int(row.one("th").text().split()[0])
            count, out = ranks[field][j][i]
            into = ranks[field][j].get(i - 1, (0, 0))[1]
            if [it.text() for it in row.all("td")] != [*map(str, (count, out, into)), f"{count} − {out} − {into} = {count - out - into}"]:
                return f"{(j, i)} over {field}"
    return None


def plain_entries(code, lists, degree):
    """The entries of the differential out of a homological degree, by its generators as they are written."""
    found = {}
    for tail in lists[degree]:
        for head, sign in plain.cube.edges(code, *tail):
            found[plain_labels(code, head), plain_labels(code, tail)] = sign
    return found
