"""What people are told: sentences on standard error, and statuses in words."""
import contextlib
import re
import sys

# What a terminal may take for an order, and bytes that are no text.
CONTROLS = re.compile("[\x00-\x1f\x7f-\x9f\u202a-\u202e\u2066-\u2069\udc80-\udcff]")


def visible(text, keep=""):
    r"""The text with each control character but those to keep as it is written, as \x1b."""
    def written(found):
        code = ord(found[0]) & 0xFF if found[0] >= "\udc80" else ord(found[0])
        return found[0] if found[0] in keep else f"\\x{code:02x}" if code < 256 else f"\\u{code:04x}"

    return CONTROLS.sub(written, text)


def say(sentence):
    """A sentence on standard error. Where that can't be written, the run goes on without it."""
    with contextlib.suppress(OSError):
        print(f"office: {visible(sentence)}", file=sys.stderr, flush=True)


def refuse(sentence, status=1):
    """Ends with a sentence on standard error."""
    say(sentence)
    raise SystemExit(status)


STATUSES = {
    2: "these words are no command, or a number, day or name of them is past its limit: office help has all",
    3: "the input couldn't be read, and nothing was filed in {journal}: file the same again",
    4: "the text couldn't be written: run it again; what stands in {journal} {stands}",
    5: "{journal} can't be opened or is held by another run, or its disk failed or is full: mend that, and run it again",
    6: "{journal} is no office, or one of an older version (see upgrade), or found was told and it is one: mend the path",
    7: "{journal} is damaged, or another desk's journal, and was left as it is: take the last copy",
    8: "the input has more than 16 MiB, and nothing was filed in {journal}: file it in parts",
    9: "there was not enough memory: run it again with more; what stands in {journal} {stands}",
    10: "the port can't be bound, or a listener failed: take another port",
}
UPGRADED = {
    4: "the last line couldn't be written: run it again; {old} is as it was",
    5: "{new} or {old} can't be opened or is held by another run, or its disk failed or is full: mend that, and run it again; "
    "{old} is as it was",
    6: "the line tells of {old}, or of {new} where it says exists or target: mend the path, and upgrade into a new file; {old} is as it was",
    7: "{old} is damaged, and nothing was copied: upgrade its last copy; {old} is as it was",
    9: "there was not enough memory: run it again with more; {old} is as it was",
}
AMENDED = {
    1: "nothing was made: the last line says how many rows are no corrections that fit (errors), or how many filings would no longer stand "
    "(refused), and a line names each; {old} is as it was",
    2: "these words are none of the program's; {old} is as it was",
    3: "the corrections couldn't be read; {old} is as it was",
    4: "the text couldn't be written: run it again; {old} is as it was",
    5: "{new} or {old} can't be opened or is held by another run, or its disk failed or is full: mend that, and run it again; "
    "{old} is as it was",
    6: "the line tells of {old}, or of {new} where it says exists or target: mend the path, and name a new file behind amend; {old} is as it was",
    7: "{old} is damaged, and nothing was made: amend its last copy; {old} is as it was",
    8: "the corrections have more than 16 MiB: make them in parts; {old} is as it was",
    9: "there was not enough memory, of which two offices are wanted: run it again with more; {old} is as it was",
}
AUDITED = {
    3: "the input couldn't be read: run the same again",
    4: "the text couldn't be written: run it again",
    8: "the input has more than {most}",
    9: "there was not enough memory: run it again with more",
}
# How much an audit reads, one of a whole office, and rows of clock-hour programs.
MOST_READ = "16 MiB, which is more than an export of 20,000 filings needs: audit whole takes 1 GiB"
MOST_OF_WHOLE = "1 GiB, which is more than an export of an office in which no line is longer than an application needs"
MOST_OF_ROWS = "16 MiB: give it in parts"


def say_known(sentences, status, **names):
    """The sentence on a status of the program, and where the page says more. Whether there is one."""
    if status in sentences:
        say(f"{sentences[status].format(**names)} (docs/ANSWERS.md, status {status})")
    return status in sentences
