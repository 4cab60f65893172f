#!/usr/bin/env python3
"""Writes a schema, data and a query of a given size, to measure runs with.

    generate.py START N FOLDER

The files are FOLDER/s, FOLDER/d and FOLDER/q. Objects 1 to N have the number as their id. Of the start number
g(0), g(k) = (1103515245 g(k-1) + 12345) mod 2^31: an odd object is a User with the name u and k, the age g(k) mod
100 and, from 3 on, the friend k - 2 with the strength k mod 7; an even one is a Post with the title p and k, the
author 2 (g(k) mod (k / 2)) + 1 and the tag t and k mod 10.
"""
import json
import pathlib
import sys
import uuid

SCHEMA = """abstract type Named { required name: str { constraint exclusive; } }
type User extending Named { age: int64; multi friends: User { strength: int64; } }
type Post { required title: str; required author: User; multi tags: str; }
"""


def id_of(k):
    return str(uuid.UUID(int=k))


def objects(start, count):
    g = start
    for k in range(1, count + 1):
        g = (g * 1103515245 + 12345) % 2147483648
        if k % 2:
            user = {"id": id_of(k), "type": "User", "name": f"u{k}", "age": g % 100}
            if k >= 3:
                user["friends"] = [{"id": id_of(k - 2), "@strength": k % 7}]
            yield user
        else:
            author = 2 * (g % (k // 2)) + 1
            yield {"id": id_of(k), "type": "Post", "title": f"p{k}", "author": id_of(author), "tags": [f"t{k % 10}"]}


def main():
    start, count, folder = int(sys.argv[1]), int(sys.argv[2]), pathlib.Path(sys.argv[3])
    folder.mkdir(parents=True, exist_ok=True)
    (folder / "s").write_text(SCHEMA)
    data = {"format": 1, "objects": list(objects(start, count))}
    (folder / "d").write_text(json.dumps(data, separators=(",", ":")))
    (folder / "q").write_text("select User.name\n")


main()
