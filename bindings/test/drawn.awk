# Draws a script of 2,000 events by a fixed rule: the next number is 16807 times the last modulo 2^31 - 1.
function draw(below) {
    seed = (seed * 16807) % 2147483647
    return seed % below
}

function text(   length_, letters, i) {
    length_ = draw(8) == 0 ? draw(300) : draw(24)
    letters = ""
    for (i = 0; i < length_; i++) letters = letters sprintf("%c", 97 + draw(26))
    return letters
}

function policy(   which) {
    which = draw(5)
    if (which < 2) return "BUFFER"
    return (which == 2 ? "DROP:" : which == 3 ? "LATEST:" : "BOUNDED:") (1 + draw(9))
}

BEGIN {
    seed = 20031
    at = 0
    joined = 0
    for (event = 0; event < 2000; event++) {
        kind = draw(20)
        who = draw(joined + 1) # rarely one that never joined
        if (event == 1900) print (draw(2) == 0 ? "END s" : "FAIL s " text())
        else if (kind < 10) print "PUB s " text()
        else if (kind < 17) print "REQUEST s " who " " draw(19)
        else if (kind == 17 && draw(4) == 0) print "DISPOSE s " who
        else if (kind < 19) print "AT " (at += draw(5))
        else {
            joined++
            print "JOIN s " policy() " " (draw(2) == 0 ? "AHEAD" : "DELAY") " " draw(4)
        }
    }
}
