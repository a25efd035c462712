# Frames and answers in words. Reads two texts side by side, the session and its answers, and writes for each frame one line: its number, what it asks,
# and what its answer says. It only reads digits: what a frame comes to is the proved program's to say. The environment names the files: `answers`; and, where
# `frame` is a number, `recorded`: then that frame alone is shown, in three lines, with the line that was recorded for it.

BEGIN {
    answers = ENVIRON["answers"]
    recorded = ENVIRON["recorded"]
    frame = ENVIRON["frame"]
}

function digit(s, at) { return index("0123456789ABCDEF", substr(s, at, 1)) - 1 }

# The byte, the size and the word in place `at` of a text of digits, counted in bytes from 0.
function byte(s, at) { return 16 * digit(s, 2 * at + 1) + digit(s, 2 * at + 2) }
function size(s, at) { return 256 * byte(s, at) + byte(s, at + 1) }
function word(s, at) { return 4294967296 * byte(s, at) + 16777216 * byte(s, at + 1) + 65536 * byte(s, at + 2) + size(s, at + 3) }

function isText(s) { return length(s) % 2 == 0 && s !~ /[^0-9A-F]/ }

function many(n, one, more) { return n " " (n == 1 ? one : more) }

# The words from byte `at` on.
function wordsFrom(s, at,    n, i, text) {
    n = (length(s) / 2 - at) / 5
    for (i = 0; i < n; i++) text = text " " sprintf("%.0f", word(s, at + 5 * i))
    return many(n, "word", "words") (n ? ":" text : "")
}

# ---- frames

# The units of a mask.
function unitsOf(mask,    u, text) {
    for (u = 0; u < 16; u++) { if (mask % 2) text = text (text == "" ? "" : ", ") u; mask = int(mask / 2) }
    return text
}

function declared(s,    c, text, mask) {
    for (c = 0; c < 5; c++) {
        mask = size(s, 4 + 2 * c)
        if (mask) text = text (text == "" ? "" : "; ") "on channel " c " " (unitsOf(mask) ~ /,/ ? "units " : "unit ") unitsOf(mask)
    }
    return text == "" ? "no unit is declared" : "declared are " text
}

function flagsText(flags,    text) {
    if (flags > 15) return "flags " flags
    text = (flags % 2 ? "output" : "input") (int(flags / 2) % 2 ? ", two buffers" : ", one buffer")
    if (flags >= 12) return text ", sequence numbers and check sums"
    if (flags >= 8) return text ", check sums"
    if (flags >= 4) return text ", sequence numbers"
    return text ", no check words"
}

# The name with the number n in a list of names, or the number where the list has none.
function named(n, names, other,    parts) { return n < split(names, parts, "|") && parts[n + 1] != "" ? parts[n + 1] : other " " n }

# How many of a report's n bytes stand ahead of its words: two more with a length, which the bytes left over from fives show.
function headOf(n) { return n > 4 && (n - 4) % 5 == 2 ? 6 : 4 }

# Whether a line is a frame, by its kind and its count of bytes; a length stands in a redundancy's report alone.
function isFrame(s,    n, kind) {
    if (length(s) > 10252 || length(s) == 0 || !isText(s)) return 0
    n = length(s) / 2
    kind = byte(s, 0)
    if (kind == 0) return n == 14
    if (kind == 1) return n == 9
    if (kind == 3) return n == 4 || n == 6
    if (kind == 4) return n >= 4 && (n - headOf(n)) % 5 == 0 && (headOf(n) == 4 || byte(s, 3) == 1)
    if (kind == 6) return n >= 2 && (n - 2) % 5 == 0
    if (kind >= 9 && kind <= 12) return n == 1
    return kind <= 8 && n == 2
}

function frameText(s,    kind, n) {
    if (!isFrame(s)) return length(s) ? "no frame: " many(length(s), "character", "characters") : "no frame: an empty line"
    kind = byte(s, 0)
    n = length(s) / 2
    if (kind == 0) return "fresh start: " many(byte(s, 1), "buffer", "buffers") " of " many(size(s, 2), "word", "words") "; " declared(s)
    if (kind == 1) return "open file " byte(s, 1) " on channel " byte(s, 2) ", unit " byte(s, 3) ": " flagsText(byte(s, 4)) "; blocks of " many(size(s, 5), "word", "words") ", records of " size(s, 7)
    if (kind == 2) return "close file " byte(s, 1)
    if (kind == 3) return "ask of file " byte(s, 1) ": " named(byte(s, 2), "read|write|mark", "operation") ", " named(byte(s, 3), "ordinary|priority", "priority") (n > 4 ? ", naming routine " byte(s, 4) " with priority " byte(s, 5) : "")
    if (kind == 4) return "report of channel " byte(s, 1) ", unit " byte(s, 2) ": " named(byte(s, 3), "good|redundancy|incomplete word|file mark|end of medium", "outcome") (headOf(n) > 4 ? ", a length of " many(size(s, 4), "word", "words") : "") (n > headOf(n) ? ", with " wordsFrom(s, headOf(n)) : "")
    if (kind == 5) return "get from file " byte(s, 1)
    if (kind == 6) return "put to file " byte(s, 1) ": " wordsFrom(s, 2)
    if (kind == 7) return "seal file " byte(s, 1)
    if (kind == 8) return "skip a block of file " byte(s, 1)
    return named(kind - 9, "freeze|thaw|return of the routine that runs|what runs", "kind")
}

# ---- answers

# The sentence of the refusal table; of 9 the part for this frame.
function noBuffer(frame,    kind) {
    kind = byte(frame, 0)
    if (kind == 6) return "no part-filled or empty buffer"
    if (kind == 7) return "no part-filled buffer"
    return kind == 3 && byte(frame, 2) == 0 ? "no empty buffer" : "no full buffer"
}

function refusal(n, frame) {
    if (n == 1) return "an argument is outside its range, the area is short, words come with a report that may have none, a length is not the number of its words, or the frame is malformed"
    if (n == 2) return "a given word, or a buffer word that the call sums or hands out, is 2^36 or more"
    if (n == 3) return "the unit is not declared"
    if (n == 4) return "the file number is open already, or the unit is already bound"
    if (n == 5) return "the file is not open"
    if (n == 6) return "wrong direction: read, get, skip on an output file; write, mark, put, seal on an input file"
    if (n == 7) return "fewer free buffers than the one or two asked for"
    if (n == 8) return "the file's unit has an unanswered request" (byte(frame, 0) == 3 ? ", or a routine waits there" : "")
    if (n == 9) return noBuffer(frame)
    if (n == 10) return "a file mark has been read since the open"
    if (n == 11) return "the channel is not working for that unit"
    if (n == 12) return "the outcome is not allowed for the operation"
    if (n == 13) return "a size does not fit"
    if (n == 15) return "an output buffer is part-filled or full"
    if (n == 18) return "no routine runs"
    return "no refusal of the table"
}

function worksFor(u) { return u == 255 ? "the channel works for nobody now" : "the channel works for unit " u }

# The program that runs, three bytes from `at` on: channel, unit and number of a routine, 255 each for the main program.
function runsText(s, at) { return byte(s, at) == 255 && byte(s, at + 1) == 255 ? "the main program runs" : "routine " byte(s, at + 2) " of channel " byte(s, at) ", unit " byte(s, at + 1) " runs" }

function errorText(e) { return e == 0 ? "no check error" : named(e, "|a sequence error|a check sum error|a sequence and a check sum error|a permanent redundancy||||||a permanent incomplete word", "check error") }

# What was found of a delivered block, twelve bytes after the error number: the sum and the number worked out, and those read. This is the one place that
# knows of them; `foundBytes` is how many bytes of such an answer they take, 0 where there are none.
function foundBytes(n, without) { return n == without + 12 ? 12 : 0 }
function foundText(s, at) { return "; worked out: sum " (65536 * size(s, at) + size(s, at + 2)) ", number " size(s, at + 4) "; read: sum " (65536 * size(s, at + 6) + size(s, at + 8)) ", number " size(s, at + 10) }

# What an answer to a frame says; "" if no answer to that frame has this form.
function answerText(frame, s,    n, kind, result, found) {
    if (!isText(s) || length(s) == 0) return ""
    n = length(s) / 2
    if (byte(s, 0) != 0) return n == 1 ? "refused, " byte(s, 0) ": " refusal(byte(s, 0), frame) : ""
    if (!isFrame(frame)) return ""
    kind = byte(frame, 0)
    if (kind == 3) return n == 2 ? "accepted; " worksFor(byte(s, 1)) : ""
    if (kind == 4) {
        if (n < 4) return ""
        result = named(byte(s, 1), "repeated|ended good|ended good, in the opposite mode|ended with a file mark|ended with the end of the medium|ended with a permanent redundancy|ended with a permanent incomplete word|backspace three, then repeat", "result")
        found = length(frame) / 2 > headOf(length(frame) / 2) ? foundBytes(n, 4) : 0
        if (n - found > 4 && ((n - 4) % 5 || length(frame) > 8)) return ""
        return result ", " errorText(byte(s, 2)) (found ? foundText(s, 3) : "") "; " worksFor(byte(s, 3 + found)) (n - found > 4 ? "; the block has " wordsFrom(s, 4) : "")
    }
    if (kind == 5) {
        if (n < 2) return ""
        if (byte(s, 1) == 0 || byte(s, 1) == 4) return (n - 2) % 5 ? "" : (byte(s, 1) ? "a leftover, " : "a record, ") wordsFrom(s, 2)
        if (byte(s, 1) == 3) { found = foundBytes(n, 3); return n - found == 3 ? "the block has " errorText(byte(s, 2)) (found ? foundText(s, 3) : "") : "" }
        if (n != 2) return ""
        return byte(s, 1) == 1 ? "nothing yet" : byte(s, 1) == 2 ? "end" : ""
    }
    if (kind == 11) return n == 5 && byte(s, 1) < 2 ? (byte(s, 1) ? "a waiting routine is entered; " : "the interrupted program resumes; ") runsText(s, 2) : ""
    if (kind == 12) return n == 4 ? runsText(s, 1) : ""
    return n == 1 ? "done" : ""
}

function told(frame, s,    text) {
    text = answerText(frame, s)
    return text == "" ? "no answer to that frame: " (s == "" ? "an empty line" : s) : text
}

{
    known = (getline answer <answers) > 0
    kept = recorded == "" ? 0 : (getline was <recorded) > 0
    if (frame == "") { print NR ": " frameText($0) " -> " (known ? told($0, answer) : "no answer"); next }
    if (NR != frame) next
    print "  asked:    " frameText($0)
    print "  recorded: " (kept ? told($0, was) : "nothing, the line is missing")
    print "  right:    " told($0, answer)
    exit
}

END {
    if (frame != "" && NR < frame) {
        while (count++ < frame - NR) getline was <recorded
        print "  asked:    nothing, the session has " many(NR, "frame", "frames")
        print "  recorded: " (was == "" ? "an empty line" : was)
        print "  right:    nothing"
    }
}
