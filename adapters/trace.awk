# What the converters of this folder share: it turns commands and data phases into the lines of a trace.
#
# A converter calls command() for each command in the order in which the host sent them, and phase() after a command whose data
# phase it knows. One that sees only the command line calls seen() instead, which works out the data phases itself. It calls
# finish() at the end of its input. `emmc` is 1 for an e.MMC device and 0 for an SD card, and `name` is the converter's name.
#
# Commands that no script can name are left out, because a trace is read against the same tables. The CMD55 before such an
# application command is left out too. Arguments that a script cannot write are replaced by one that means the same here. Each of
# these stands in the trace as a comment, as it was captured, with the reason. At the end notes() reports on standard error what was
# left out or replaced, how often, and in which line first.
#
# POSIX awk. Arguments and answers are texts of eight hexadecimal digits, so no number exceeds 2^32.

# MESSAGES

# Prints at most 200 characters of a text, and a ? for each that cannot be printed.
function say(text) {
    text = substr(text, 1, 200)
    gsub(/[^ -~]/, "?", text)
    print name ": " text | "cat 1>&2"
}

# A line that the converter should understand is malformed: the conversion ends.
function die(text) {
    dead = 1
    say("line " NR ": " text)
    close("cat 1>&2")
    exit 1
}

# At most 100 different notes are kept.
function note(text) {
    if (!(text in note_count)) {
        if (note_number == 100) text = "more was left out or replaced"
        else note_number++
        if (!(text in note_count)) {
            note_first[text] = NR
            note_order[++note_last] = text
        }
    }
    note_count[text]++
}

function notes(    i, text) {
    for (i = 1; i <= note_last; i++) {
        text = note_order[i]
        say(text " (line " note_first[text] (note_count[text] > 1 ? ", " note_count[text] " times" : "") ")")
    }
    close("cat 1>&2")
}

# The input has nothing that the converter looks for: an empty trace would be taken for a host that sent nothing.
function lacks(text) {
    say(text)
    close("cat 1>&2")
    exit 1
}

# WORDS of eight hexadecimal digits

function digit(text, place) { return index("0123456789abcdef", substr(text, place, 1)) - 1 }

function is_hex(text, length_wanted) { return length(text) == length_wanted && text !~ /[^0-9a-f]/ }

function power(n) { return substr("1248", n + 1, 1) + 0 }

function bit(word, n) { return int(digit(word, 8 - int(n / 4)) / power(n % 4)) % 2 }

function word_of(number) { return sprintf("%04x%04x", int(number / 65536), number % 65536) }

# The state that a status shows: 0 idle, 1 ready, 2 ident, 3 stby, 4 tran, 5 data, 6 rcv, 7 prg, 8 dis.
function state_of(status) { return bit(status, 12) * 8 + bit(status, 11) * 4 + bit(status, 10) * 2 + bit(status, 9) }

# The state that an answer shows, or -1.
function shown(answer) { return answer ~ /^R1 / ? state_of(substr(answer, 4)) : -1 }

# LINES OF THE TRACE

# While it is open whether a data phase took place, the lines after it wait in later[].
function out(line) {
    if (due == "") print line
    else later[++laters] = line
    if (due != "" && line !~ /^#/) commands_later++
}

# COMMENTS in place of lines that are left out, and before those that stand for others

function omit(line, reason) { out("# left out: " line ": " reason) }

function alter(line, reason) { out("# changed: " line ": " reason) }

# the held CMD55 is left out
function omit_held(reason) {
    if (held != "") omit(held, reason)
    held = ""
}

# why another argument stands for that of a command
function reason_of(i, app) {
    if (i == 41 || (emmc && i == 1)) return "another voltage window"
    if (!emmc && i == 8) return "another check pattern"
    if (emmc && i == 6) return "bits that do not count"
    if (emmc && i ~ /^(3|7|9|10|13)$/) return "another relative address"
    return "bits at which the card does not look"
}

# The held line is a CMD55 whose next command is not known yet.
function let_go() {
    if (held != "") out(held)
    held = ""
}

# DATA LINES. No capture shows when a host changes its own. This assumes that it does so at the answer to ACMD6. For an e.MMC
# device it is at the first CMD13 after CMD6 that shows the transfer state and no error, or else before the next command. CMD0
# sets the host back to one line.

function set_lines(count) {
    if (lines != count) out("LINES " count)
    lines = count
}

function use_lines_due() {
    set_lines(lines_due)
    lines_due = 0
}

function change_lines(arg, answer) {
    if (answer !~ /^R1 /) return
    if (emmc && arg ~ /^03b7/) lines_due = substr("148", 1 + substr(arg, 6, 1), 1)
    if (!emmc && arg == "00000000") set_lines(1)
    if (!emmc && arg == "00000002") set_lines(4)
}

# COMMANDS

# An application command that no script can name. `app`: it comes after CMD55.
function is_other_application(i, app) { return app && i ~ /^(22|23|4[2-9])$/ }

# A script can name the command.
function in_tables(i, arg, app) {
    if (emmc) {
        if (i == 6) return arg ~ /^03b70[012]/ || arg ~ /^03b3.[01289a]/
        if (i == 8) return arg == "00000000"
        return i ~ /^([01237]|9|10|12|13|16|17|18|23|24|25|35|36|38)$/
    }
    if (is_other_application(i, app)) return 0
    if (i == 6) return app
    return i ~ /^([02378]|9|10|12|13|16|17|18|24|25|32|33|38|41|51|55)$/
}

# It asks for the voltages that the card takes, and starts nothing.
function is_inquiry(i, arg) { return i == (emmc ? 1 : 41) && substr(arg, 3) == "000000" }

# The relative address of an e.MMC device as 1, and 1 as that address.
function renamed(arg,    high) {
    high = substr(arg, 1, 4)
    if (high == device) return "0001" substr(arg, 5)
    return (high == "0001" && device != "" ? device : high) substr(arg, 5)
}

# The argument that a script writes in place of this one. `app`: it comes after CMD55.
function argument_of(i, arg, app) {
    if (emmc && i ~ /^(3|7|9|10|13)$/) arg = renamed(arg)
    # the card looks at no bit of ACMD13, and a script sends the address with it
    if (app && i == 13) return address_55
    # the card does not look at these bits
    if (i == 2 || (!emmc && i ~ /^(0|3|12|51)$/)) return "00000000"
    if (i ~ /^(7|9|10|55)$/) return substr(arg, 1, 4) "0000"
    if (!emmc && i == 41) return bit(arg, 30) ? "40ff8000" : "00ff8000"
    if (!emmc && i == 8 && arg ~ /^000001/) return "000001aa"
    if (emmc && i == 1) return "40ff8080"
    # of byte 179 only the access bits count, and the command set does not count where a byte is written
    if (emmc && i == 6) return substr(arg, 1, 4) "0" (digit(arg, 6) % 8) "00"
    return arg
}

# The answer to CMD8 with another check pattern: the two patterns change places in it.
function echo_of(arg, answer,    back) {
    back = substr(answer, 10)
    if (answer !~ /^R7 / || arg == "000001aa") return answer
    if (back == substr(arg, 7)) return substr(answer, 1, 9) "aa"
    if (back == "aa") return substr(answer, 1, 9) substr(arg, 7)
    return answer
}

# The next command stands in the trace as it was not, for this reason.
function stands_otherwise(words, reason) {
    note(words ": " reason)
    remark = reason
}

# A command, and what came of it: `-`, `timeout` or a response. It returns 1 if the trace has the command. `counted` is 1 after
# the CMD23 of an SD card, and after the command of its transfer.
function command(i, arg, answer,    app, taken, want, state, why) {
    why = remark
    remark = ""
    app = after_55
    counted = counted && last_index == 23 && (i == 18 || i == 25)
    last_index = i
    taken = held_taken
    after_55 = !emmc && i == 55
    if (after_55) address_55 = substr(arg, 1, 4) "0000"
    held_taken = 0
    state = shown(answer)
    if (after_left && i == 13 && state >= 5 && state <= 7) {
        note("left out: CMD13 while the card was at work on a command that was left out")
        let_go()
        omit("CMD13 " arg " " answer, "the card is at work on a command that is left out")
        return 0
    }
    after_left = 0
    if (is_inquiry(i, arg) && (emmc || taken)) {
        note("left out: " (emmc ? "CMD1" : "CMD55 and CMD41") " " arg ", an inquiry")
        omit_held("before an inquiry")
        omit("CMD" i " " arg " " answer, "an inquiry")
        return 0
    }
    if (!in_tables(i, arg, app)) {
        after_left = 1
        counted = !emmc && i == 23 && !app && answer ~ /^R1 /
        if (is_other_application(i, app)) {
            note("left out: CMD55 and CMD" i)
            omit_held("before ACMD" i)
        } else note("left out: CMD" i (emmc && i == 6 ? " " arg : ""))
        let_go()
        omit("CMD" i " " arg " " answer, "no script can name it")
        return 0
    }
    let_go()
    if (why != "") alter("CMD" i " " arg, why)
    if (emmc && i == 3 && substr(arg, 1, 4) != "0000") device = substr(arg, 1, 4)
    want = argument_of(i, arg, app)
    if (want != arg) {
        note("CMD" i " " arg " stands as CMD" i " " want)
        alter("CMD" i " " arg " " answer, reason_of(i, app))
        if (i == 8) answer = echo_of(arg, answer)
        arg = want
    }
    if (i == 7 && arg == "00000000" && answer != "-") {
        note("CMD7 with address 0 stands without an answer")
        alter("CMD7 " arg " " answer, "no card answers it")
        answer = "-"
    }
    if (i == 0) {
        lines_due = 0
        set_lines(1)
    } else if (lines_due && i != 13) use_lines_due()
    if (after_55) {
        held = "CMD55 " arg " " answer
        held_taken = answer ~ /^R1 / && bit(substr(answer, 4), 5)
        return 1
    }
    out("CMD" i " " arg " " answer)
    if (i == 6) change_lines(arg, answer)
    else if (lines_due && i == 13 && state >= 0) {
        if (bit(substr(answer, 4), 7)) lines_due = 0
        else if (state == 4) use_lines_due()
    }
    return 1
}

# The end of a transfer by its count: no script can send CMD23 to an SD card, and CMD12 stands for it.
function end_by_count(is_write) {
    note("CMD12 stands for the end of a transfer by the count of CMD23")
    counted = 0
    out("CMD12 00000000 R1 00000" (is_write ? "d00" : "b00"))
}

# A data phase, as IN, OUT or REG, how many blocks or bytes, and whether it ended well.
function phase(word, count, well) { out(word " " count (well ? " ok" : " cut")) }

# The data phase that a command asks for, with one block for a transfer of an unknown number, or nothing.
function asked(i, app) {
    if (i == 17 || i == 18) return "IN 1 ok"
    if (i == 24 || i == 25) return "OUT 1 ok"
    if (emmc) return i == 8 ? "REG 512 ok" : ""
    return app && i == 51 ? "REG 8 ok" : app && i == 13 ? "REG 64 ok" : ""
}

# It is settled whether the phase took place.
function settle(took_place,    i, line) {
    if (due == "") return
    line = due
    due = ""
    if (took_place) {
        print line
        if (counted) end_by_count(line ~ /^OUT/)
        note("put in: " line (open_due ? " for any number of blocks" : "") ", because a later command shows the phase")
    }
    for (i = 1; i <= laters; i++) print later[i]
    laters = commands_later = 0
}

# A command on the command line alone. `state` is the state in which the card received it, or -1. The next command with a state
# shows whether the data phase before it took place: if so, the card is in transfer state (4) again, or programming (7). A CMD12
# after the command of an open transfer shows it too. A phase that 64 lines do not show is not put in.
function seen(i, arg, answer, state,    app) {
    app = after_55
    if (due != "") {
        if (open_due && i == 12) {
            counted = 0
            settle(1)
        } else if (state >= 0) settle(state == 4 || (state == 7 && due ~ /^OUT/))
        else if (commands_later >= 64) settle(0)
    }
    if (command(i, arg, answer) && answer ~ /^R1 /) {
        due = asked(i, app)
        open_due = i == 18 || i == 25
    }
}

function finish() {
    let_go()
    settle(0)
    notes()
}

BEGIN {
    lines = 1
    device = ""
}
