"""The script's own rules: lines, fields, numbers, hex, and calls without a session."""

from build import hex_of
from kit import PANEL, PANEL_SET, STARTED, batch, case, rules_of, set_up, started

rules_of("the script's format in kit/README.md")

COMMAND = "spec_replay Script.command"
HEX = "spec_replay Script.readHex"
NUMBER = "spec_replay Script.number"
# a case has three comment lines, and this beginning has eight lines
BEGIN = started() + ["show"]
BEGUN = STARTED + PANEL
assert len(BEGIN) == 8


def bad(name, rule, definition, line):
    """A line that is no command, as line 12: the answers end with it, and the lines behind it are not read."""
    line = line if isinstance(line, bytes) else line.encode()
    case("script_" + name, rule, definition, BEGIN + [line + b"\n", "show", "show"], BEGUN + ["? 12"])


# ---- what prints nothing

case(
    "script_comments_and_empty_lines",
    "empty lines and lines that start with # print nothing, and count for line numbers", "spec_replay Script.isRemark",
    ["", "#", "# show", "#show", "", "show", "", "Show"], ["N", "? 11"],
)
case(
    "script_of_comments_alone", "a script without calls has no answers", "spec_replay Replay.replay",
    ["# nothing is asked"], [],
)
case(
    "script_set_up_prints_nothing", "session, node, binding and collection print nothing",
    "spec_replay Replay.replayLine", ["session 1 2 3 4 5", "node 1", "binding 1 2", "collection 3"], [],
)

# ---- without a session

case(
    "script_calls_without_a_session", "apply, batch, show and value without a session print N",
    "spec_replay Replay.asked",
    set_up()[:-1]
    + ["apply activate 0", batch(1, PANEL_SET), "show", "value binding 5 0", "value node 5", "value entry 9 1"],
    ["N"] * 6,
)
case(
    "script_check_and_list_need_no_session", "check and list answer without a session", "spec_replay Replay.replayLine",
    ["check " + hex_of(PANEL_SET), "list " + hex_of(PANEL_SET), "check -", "list -"],
    ["K 0 set 0"] + PANEL + ["K 10", "E 10"],
)
case(
    "script_bad_line_without_a_session", "a bad field is met before the question whether there is a session", COMMAND,
    ["show", "apply start 0", "show"], ["N", "? 5"],
)
case(
    "script_bad_line_without_senders", "a bad field is met before the question whether there are senders", COMMAND,
    ["wait 0", "turn", "wait one", "turn"], ["N", "N", "? 6"],
)

# ---- commands and fields

bad("unknown_command", "a word that is no command", COMMAND, "display")
bad("upper_case_command", "commands are in lower case", COMMAND, "SHOW")
bad("command_cut", "a command is written out", COMMAND, "sho")
bad("word_run_together", "a field follows its command after a space", COMMAND, "node5")
bad("leading_space", "a line begins with its command", COMMAND, " show")
bad("trailing_space", "a space at the end begins an empty field", COMMAND, "show ")
bad("two_spaces", "fields are parted by exactly one space", COMMAND, "node  5")
bad("tab_between_fields", "a tab does not part fields", COMMAND, "node\t5")
bad("space_alone", "a space is no empty line", COMMAND, " ")
bad("space_before_comment", "# is a comment only as the first byte", COMMAND, " # comment")
bad("comment_behind_command", "a comment has a line of its own", COMMAND, "show # comment")
bad("carriage_return", "a line ends with LF alone", COMMAND, b"show\r")
bad("nul_byte", "a zero byte is a byte as any other", COMMAND, b"show\0")
bad("bytes_that_are_no_text", "a line of any bytes is answered", COMMAND, b"\xff\xfe\x80")
for line in ["session 7 100 10 8", "node", "binding 5", "collection", "apply activate", "batch 7 4 0 10 0", "check", "list",
    "senders", "wait", "value", "value binding 5", "value node", "value entry 9"]:
    bad(
        "missing_field_" + "_".join(line.split()[: 2 if line.startswith("value ") else 1]),
        "every command has just its number of fields", COMMAND, line,
    )
for line in ["session 7 100 10 8 64 1", "node 5 5", "binding 5 0 0", "collection 9 9", "create 7", "apply activate 0 0",
    "batch 7 4 0 10 0 - -", "check - -", "list - -", "show 1",
    "senders 2 2", "wait 0 0", "turn 0",
             "value binding 5 0 0", "value node 5 0", "value entry 9 1 1"]:
    bad(
        "extra_field_" + "_".join(line.split()[: 2 if line.startswith("value ") else 1]),
        "every command has just its number of fields", COMMAND, line,
    )
bad(
    "unknown_lifecycle_command", "the lifecycle's commands are activate, suspend, resume, close and noop",
    "spec_replay Script.stimuli", "apply start 0",
)
bad(
    "lifecycle_command_upper_case", "the lifecycle's commands are in lower case", "spec_replay Script.stimuli",
    "apply Close 0",
)
bad(
    "unknown_value", "values are looked up by binding, node or entry", "spec_replay Script.values",
    "value collection 9",
)
bad("turn_upper_case", "the commands on turns are in lower case", COMMAND, "Turn")
bad("turn_trailing_space", "a space at the end begins an empty field, which turn does not have", COMMAND, "turn ")
bad("wait_two_spaces", "fields are parted by exactly one space", COMMAND, "wait  0")

# ---- numbers

bad("number_empty", "an empty field is no number", NUMBER, "node ")
bad("number_leading_zero", "a number has no leading zero", NUMBER, "node 05")
bad("number_double_zero", "0 is written once", NUMBER, "node 00")
bad("number_plus", "a number has no sign", NUMBER, "node +5")
bad("number_minus", "a number has no sign", NUMBER, "node -5")
bad("number_hex", "numbers are decimal", NUMBER, "node 0x5")
bad("number_letter", "a number has digits alone", NUMBER, "node 5a")
bad("number_point", "a number has digits alone", NUMBER, "node 5.0")
bad("number_separator", "a number has digits alone", NUMBER, "node 1_000")
bad("number_other_digits", "only the ten ASCII digits are digits", NUMBER, "node ٥")
bad("number_2_64", "2^64 is no u64", NUMBER, "node 18446744073709551616")
bad("number_of_21_digits", "no number has more than 20 digits", NUMBER, "node 100000000000000000000")
bad("number_of_many_digits", "no number has more than 20 digits", NUMBER, "node " + "9" * 1000)
case(
    "script_number_2_64_1", "2^64-1 is a u64 in every field of a number", NUMBER,
    [
        "session %s" % " ".join(["18446744073709551615"] * 5), "node 18446744073709551615",
        "binding 18446744073709551615 4294967295", "collection 18446744073709551615", "create",
        "apply noop 18446744073709551615",
        "batch 18446744073709551615 18446744073709551615 0 18446744073709551615 0 " + hex_of([]),
        "value node 18446744073709551615", "value entry 18446744073709551615 18446744073709551615",
    ],
    ["S 0", "L no-change 0 0 0 0 created - 18446744073709551615", "R no-change 0 0 0 0 -", "V -", "V -"],
)
for at, field in enumerate(["id", "sequence", "patches", "bytes", "references"]):
    numbers = ["7", "4", "0", "10", "0"]
    numbers[at] = "18446744073709551616"
    bad(
        "batch_%s_2_64" % field, "each number of a batch line is a u64", "spec_replay Script.batchArguments",
        "batch %s %s" % (" ".join(numbers), hex_of([])),
    )
for word in ["senders", "wait"]:
    bad(word + "_empty", "an empty field is no number of senders, and names none", NUMBER, word + " ")
    bad(word + "_leading_zero", "the number of senders, and a sender's, has no leading zero", NUMBER, word + " 01")
    bad(word + "_minus", "the number of senders, and a sender's, has no sign", NUMBER, word + " -1")
    bad(word + "_2_64", "2^64 is no number of senders, and names none: the line is no command, not 21 or 19", NUMBER,
        word + " 18446744073709551616")
bad("slot_2_32", "2^32 is no slot", "spec_replay Script.slot", "binding 5 4294967296")
bad("value_slot_2_32", "2^32 is no slot in a lookup either", "spec_replay Script.slot", "value binding 5 4294967296")
case(
    "script_slot_2_32_1", "2^32-1 is a slot", "spec_replay Script.slot",
    BEGIN + ["binding 5 4294967295", "value binding 5 4294967295"], BEGUN + ["V -"],
)

# ---- hex

for command in ["check", "list", "batch 7 4 0 10 0"]:
    word = command.split()[0]
    bad("hex_odd_" + word, "hex has pairs of digits", HEX, command + " 1b0")
    bad("hex_upper_case_" + word, "hex digits are in lower case", HEX, command + " 1B00")
    bad("hex_empty_" + word, "an empty field is no hex: the empty set is -", HEX, command + " ")
bad("hex_letter", "hex digits are 0 to 9 and a to f", HEX, "check 1g")
bad("hex_0x", "hex has no prefix", HEX, "check 0x1b")
bad("hex_dashes", "- stands alone", HEX, "check --")
bad("hex_dash_behind", "- stands alone", HEX, "check 1b-")
case(
    "script_hex_dash", "- is the empty byte string, which is no set", HEX,
    BEGIN + ["check -", "list -", batch(4, [], data=b""), "show"],
    BEGUN + ["K 10", "E 10", "R rejected 10 4 1 1 3"] + PANEL,
)

# ---- line ends and lengths

case(
    "script_no_lf_at_the_end", "a last line that no LF ends is no command", "spec_replay Replay.commandsOf",
    BEGIN + [b"show"], BEGUN + ["? 12"],
)
case(
    "script_comment_without_lf", "a last comment that no LF ends is no comment", "spec_replay Replay.commandsOf",
    BEGIN + [b"# end"], BEGUN + ["? 12"],
)
case(
    "script_line_of_131072_bytes", "a line has up to 131,072 bytes", "spec_replay Script.lineBytes",
    BEGIN + ["#" + "x" * 131071, "show"], BEGUN + PANEL,
)
case(
    "script_line_of_131073_bytes", "a longer line is no command, nor a comment", "spec_replay Script.lineBytes",
    BEGIN + ["#" + "x" * 131072, "show"], BEGUN + ["? 12"],
)
case(
    "script_long_hex_line", "the longest hex that a line can hold is over 32,768 bytes: 12",
    "spec_replay Script.lineBytes", BEGIN + ["check " + "00" * 65533, "show"], BEGUN + ["K 12"] + PANEL,
)
assert len("check " + "00" * 65533) == 131072
case(
    "script_stops_at_the_first_bad_line", "the first bad line ends the script, and only its number is printed",
    "spec_replay Replay.replayLine", BEGIN + ["oops", "oops again", "show"], BEGUN + ["? 12"],
)
case("script_bad_first_line", "a script can end at its first call", "spec_replay Answers.otherLine", ["open"], ["? 4"])
