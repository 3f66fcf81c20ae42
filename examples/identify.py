#!/usr/bin/env python3
"""The text of a tag, or an identity and the filter that its tag is to have:
identify.py LIBRARY [urn:epc:tag:gid-96:1.2.3 | urn:epc:id:sscc:0614141.1234567890 3].

LIBRARY is the shared library of include/tagcodec.h (tests/link makes target/link/libtagcodec.so). Prints the number of the first broken
rule, 0 for none. With 0: the identity of the tag, or the text of the tag. With another: for a tag the place, the text, and a mark under
the character at the place; for an identity, whose refusals have no place, nothing more.
"""
import os
import sys

sys.dont_write_bytecode = True

from decode import from_decimal, load, show_refused, written


def show_tag(library, text):
    reply, identity = written(library.tagcodec_tag_to_identity, text)
    if reply.number == 0:
        print(0, identity.decode())
    else:
        show_refused(reply, text)


def show_identity(library, text, filter_):
    reply, tag = written(library.tagcodec_identity_to_tag, text, filter_)
    print(*([0, tag.decode()] if reply.number == 0 else [reply.number]))


def main():
    if len(sys.argv) < 2:
        sys.exit(__doc__)
    library = load(sys.argv[1])
    match sys.argv[2:]:
        case [tag] if tag.startswith("urn:"):
            show_tag(library, os.fsencode(tag))
        case [identity, filter_] if identity.startswith("urn:") and from_decimal(filter_) is not None:
            show_identity(library, os.fsencode(identity), from_decimal(filter_))
        case given:
            wanted = "the text of a tag, or an identity and a filter below 2^32; either begins with urn:"
            print(f"identify: {wanted} {' '.join(given)}", file=sys.stderr)
            sys.exit(2)


main()
