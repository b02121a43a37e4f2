"""A desk's software in small: files the rows of one school over HTTP, each again until it is answered, and prints the answers
as lines of `file`. Ends with 0 where all rows stand.

usage: python3 examples/desk.py PORT ROWS.csv      with a server started by: ./office JOURNAL serve PORT 1 1000
The file stays with the desk: its numbers are the keys by which a filing that was sent twice stands once.
"""
import csv
import http.client
import json
import pathlib
import re
import sys
import time

PAGE = pathlib.Path(__file__).resolve().parent.parent / "docs" / "FILINGS.md"


def value_of(form, text):
    """Days and programs are strings, all else is a whole number, and dollars and cents are told in cents."""
    if form == "a day" or form.startswith("one of"):
        return text
    return int(re.fullmatch(r"(0|-?[1-9]\d*)" + r"\.\d\d" * (form == "dollars and cents"), text, re.ASCII)[0].replace(".", ""))


def body_of(kind, _, number, *texts):
    """The body of a row's filing, by the names and forms of its kind's columns in the table of FILINGS.md."""
    table = PAGE.read_text().split(f"\n## {kind}\n")[1].split("\n## ")[0]
    fields = re.findall(r"^\| \d+ \| (\w+) \| .* \| ([^|,]*).*\|$", table, re.M)
    body = {"kind": kind, "number": value_of("a whole number", number)} | {name: value_of(form, text) for (name, form), text in zip(fields, texts)}
    days = texts[len(fields):]
    if len(texts) < len(fields) or len(days) != 2 * body.get("breaks", 0):
        raise ValueError("columns")
    return json.dumps(body | ({"breaks": list(zip(days[::2], days[1::2]))} if kind == "calendar" else {}))


def file(link, school, body, answered):
    """The answer to a filing. One that was cut, or met a fault, is sent again under the same key. A server that never answered is none."""
    for wait in [0, 1, 2, 5, 10, 30, 60]:
        time.sleep(wait)
        try:
            link.request("POST", f"/desks/{school}/filings", body, {"Content-Type": "application/json"})
            reply = link.getresponse()
            answer = json.loads(reply.read())
            if reply.status not in (503, 507):
                return answer
        except ConnectionRefusedError:
            if not answered:
                sys.exit(f"desk: no server answers on port {link.port}: start one by ./office JOURNAL serve {link.port} 1 1000")
        except (OSError, http.client.HTTPException, ValueError):
            link.close()
    return {"answer": "unanswered"}


def line_of(row, answer):
    """An answer as a line of `file`, which `./office explain` reads; a request that is none by its status."""
    words = {"accepted": ("position", "outcome"), "again": ("position", "outcome"), "refused": ("rule", "kept", "bound")}
    said = answer.get("answer")
    if said in words:
        return " ".join(map(str, [row, answer["front"], said, *(answer[word] for word in words[said])]))
    if said is None:
        said = "no filing" if answer["error"] == 400 else f"status {answer['error']}"
    return f"{row} {said}"


def main(port, path):
    link, stood, answered = http.client.HTTPConnection("127.0.0.1", port, timeout=40), True, False
    with open(path, newline="", encoding="utf-8-sig") as rows:
        for row, columns in enumerate(filter(None, csv.reader(rows)), 1):
            try:
                school, body = value_of("a whole number", columns[1]), body_of(*columns)
            except (TypeError, IndexError, ValueError):
                answer = {"answer": "no filing"}
            else:
                answer = file(link, school, body, answered)
                answered = True
            stood = stood and answer.get("answer") in ("accepted", "again")
            print(line_of(row, answer), flush=True)
    return 0 if stood else 1


if __name__ == "__main__":
    if len(sys.argv) != 3 or not sys.argv[1].isdigit():
        sys.exit("usage: python3 examples/desk.py PORT ROWS.csv")
    try:
        sys.exit(main(int(sys.argv[1]), sys.argv[2]))
    except OSError as error:
        sys.exit(f"desk: {sys.argv[2]} can't be read: {error.strerror}")
    except KeyboardInterrupt:
        sys.exit(130)
