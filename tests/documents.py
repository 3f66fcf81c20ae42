"""The blocks of lines whose answers the documents state: document 01's example and known tags, the standard's examples.

A block gives pairs, as in tests/blocks.py.
"""

from tags import ROOT, SCHEMES, both, refused

ROW_1 = "urn:epc:tag:sgtin-96:3.0614141.812345.6789"
ROW_1_CODE = "3074257BF7194E4000001A85"
ROW_6 = "urn:epc:tag:sgtin-198:0.0614141.812345.a.b"
ROW_6_CODE = "3614257BF7194E70AEC4" + 16 * "00"


def example():
    """Document 01's example of the program."""
    pair = both("urn:epc:tag:grai-96:3.0614141.12345.5678", "30003374257BF40C0E400000162E")
    refusal = "R 18 urn:epc:raw:96.x330000000000044000000005"
    return pair + [("3000330000000000044000000005", refusal), ("", "N 9")]


def known():
    """Document 01's known tags, rows 1 to 14; row 13 as request C-13 of document 02 has it."""
    yield from both(ROW_1, "3000" + ROW_1_CODE)
    yield from both("urn:epc:tag:grai-96:3.0614141.12345.5678", "30003374257BF40C0E400000162E")
    yield from both("urn:epc:tag:grai-96:0.000000000001..5", "3000330000000000040000000005")
    yield "3000330000000000044000000005", refused(18, "3000330000000000044000000005")
    yield from both("urn:epc:tag:sscc-96:3.0614141.1234567890", "30003174257BF4499602D2000000")
    yield "30003174257BF4499602D2000001", refused(15, "30003174257BF4499602D2000001")
    yield from both(ROW_6, "6800" + ROW_6_CODE)
    yield from both(ROW_1.replace("6789", "274877906943"), "30003074257BF7194E7FFFFFFFFF")
    yield ROW_1.replace("6789", "274877906944"), "N 8"
    yield ROW_1.replace("6789", "007"), "N 7"
    yield from both(ROW_6.replace("a.b", "a%2Fb"), "68003614257BF7194E70AFC4" + 16 * "00")
    yield ROW_6.replace("a.b", "a%2fb"), "N 7"
    yield ROW_6.replace("a.b", "%41"), "N 7"
    yield ROW_1.replace(":3.", ":8."), "N 4"
    yield from both(ROW_1.replace("sgtin", "[att=x01]:sgtin"), "3001" + ROW_1_CODE)
    for number, bank in (
        (16, "3000307C257BF7194E4000001A85"),
        (17, "30003003FFFFFFFFFC0000000000"),
        (11, "3100" + ROW_1_CODE),
        (10, "0000" + ROW_1_CODE),
        (14, "3000" + ROW_6_CODE),
    ):
        yield bank, refused(number, bank)


def annex():
    """The standard's examples in docs/vectors.tsv, as corrected there; other schemes are refused 3 and 13."""
    schemes = {scheme.name: scheme for scheme in SCHEMES}
    for name, tag_text, code, identity, note in vectors():
        tag_text = token(note, "{FIX tag_uri=", tag_text)
        code = token(note, "{FIX code_hex=", code)
        words = schemes[name].words if name in schemes else -(-len(code) // 4)
        assert not code[4 * words :].strip("0"), code
        bank = f"{words << 11:04X}{code[:4 * words]:0<{4 * words}}"
        ours = name in schemes and "{EXPECT tag=" not in note
        if tag_text != "-":
            number = token(note, "{EXPECT tag=", "3")
            yield tag_text, (None if code == "-" else "B " + bank) if ours else "N " + number
        if code != "-":
            yield bank, "T " + tag_text if ours else refused(int(token(note, "{EXPECT bank=", "13")), bank)
        if identity != "-":
            yield identity, "N 2"
    yield from section_12()


def vectors():
    """For each row of docs/vectors.tsv its scheme, tag text, code, identity, as printed, and note; a hyphen for what it lacks."""
    rows = (ROOT / "docs" / "vectors.tsv").read_text(encoding="utf-8").splitlines()[1:]
    return [row.split("\t")[2:] for row in rows]


def section_12():
    """Section 12's tags, without a field and with an attribute, under 001's company prefix and 000's; its raw banks.

    The text of the second tag is lost in 001, whose line 5534 speaks of it; 000 has it.
    """
    for prefix, code in (("9521141", "3076451FD46DB64000000190"), ("0614141", "3074257BF46DB64000000190")):
        for control, fields in (("3000", ""), ("3001", "[att=x01]:")):
            yield from both(f"urn:epc:tag:{fields}sgtin-96:3.{prefix}.112345.400", control + code)
    for control, number in (("3601", 12), ("31C1", 11), ("3401", 13)):
        bank = control + "1234567890ABCDEF01234567"
        yield bank, refused(number, bank)


def token(note, start, otherwise):
    """What a note has between the start of a token and its closing brace."""
    return note.split(start)[1].split("}")[0] if start in note else otherwise
