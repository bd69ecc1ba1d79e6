# Prints what the program prints about wrong arguments, `2 BadWords PLACE`, and in a second line what is wrong with
# them; nothing about right ones. The arguments of a call follow it:
#   LC_ALL=C awk -f tools/words.awk -- ARGUMENT ..
# docs/FORMATS.md, "Arguments", explains this table. The script ./tiling uses it, checks/script.sh compares it with the
# program, and checks/usage.sh its keys with docs/usage.toml.
function is_one_of(word, text) { return word ~ /^[a-z0-9]+$/ && index(" " text " ", " " word " ") }
function is_number(word, most) {
    if (word !~ /^(0|[1-9][0-9]*)$/) return 0
    return length(word) < length(most) || length(word) == length(most) && word "" <= most ""
}
function are_numbers(word, least, many, most, signed, lowest,    parts, n, i) {
    n = split(word, parts, ",")
    if (n < least || n > many) return 0
    for (i = 1; i <= n; i++) {
        if (signed && parts[i] ~ /^-[1-9]/) parts[i] = substr(parts[i], 2)
        if (!is_number(parts[i], most) || (lowest && parts[i] == "0")) return 0
    }
    return 1
}
function are_layers(word,    parts, n, i, seen) {
    n = split(word, parts, ",")
    for (i = 1; i <= n; i++) {
        if (!is_one_of(parts[i], "svg list census") || parts[i] in seen) return 0
        seen[parts[i]]
    }
    return n > 0
}
function has_form(key, value) {
    if (key == "rule") return is_one_of(value, "chair p2 p3 ab halfhex") || value == "-" && !is_one_of(command, "calc verify")
    if (key == "edge" || key == "vertex") return is_number(value, "255")
    if (key == "seed") return is_number(value, "18446744073709551615")
    if (key == "grow") return is_number(value, "64")
    if (key == "path") return are_numbers(value, 1, 1000, "255")
    if (key == "at") return are_numbers(value, 4, 4, "1048576", 1)
    if (key == "half") return are_numbers(value, 2, 2, "4096", 0, 1)
    if (key == "layers") return are_layers(value)
    if (key == "glue") return value == "yes" || value == "no"
    if (key == "n") return is_number(value, "200") && value != "0"
    return 1
}
# how many letters have to be changed, put in or left out to make one word of another
function distance(one, other,    i, j, row, above, left, least) {
    for (j = 0; j <= length(other); j++) row[j] = j
    for (i = 1; i <= length(one); i++) {
        left = i - 1; row[0] = i
        for (j = 1; j <= length(other); j++) {
            above = row[j]
            least = left + (substr(one, i, 1) != substr(other, j, 1))
            if (above + 1 < least) least = above + 1
            if (row[j - 1] + 1 < least) least = row[j - 1] + 1
            left = above; row[j] = least
        }
    }
    return row[length(other)]
}
function meant(word, text,    names, i, n, best, many) {
    best = 3
    n = split(text, names, " ")
    for (i = 1; i <= n; i++) if (length(word) < 30 && distance(word, names[i]) < best) { best = distance(word, names[i]); many = names[i] }
    return many
}
function plain(word) { gsub(/[^ -~]/, "?", word); return length(word) > 60 ? substr(word, 1, 60) ".." : word }
function refuse(place, why) { print "2 BadWords " place; print why; exit }
function why_command(word,    near) {
    near = meant(word, commands)
    gsub(/ /, ", ", commands)
    if (near) return "there is no command " plain(word) "; did you mean " near "?"
    return (word == "" ? "the first argument is a command" : "there is no command " plain(word)) "; the commands are " commands
}
function why_key(word, key,    near) {
    if (!index(word, "=")) return (word == "" ? "an empty argument" : plain(word)) " is not of the form key=value, as rule=chair is"
    near = meant(key, required " " allowed)
    return command " has no key " plain(key) "=; " (near ? "did you mean " near "=?" : "its keys are " with_signs(required " " allowed))
}
function why_value(key, value) {
    if (key == "rule" && value == "-") return command " reads standard input itself, so its rule is chair, p2, p3, ab or halfhex"
    if (key == "rule" && value ~ /[.\/]/) return "a rule file comes on standard input: rule=- < " plain(value)
    return key "= is " forms[key] ", and " (value == "" ? "nothing" : plain(value)) " isn't"
}
function with_signs(text) { sub(/ +$/, "", text); gsub(/ +/, "=, ", text); return text "=" }
BEGIN {
    commands = "place neighbour walk draw check calc drill star verify"
    needs["place"] = "rule addr"; may["place"] = ""
    needs["neighbour"] = "rule addr edge"; may["neighbour"] = ""
    needs["walk"] = "rule addr"; may["walk"] = "seed grow path"
    needs["draw"] = "rule addr at half layers"; may["draw"] = "seed glue"
    needs["check"] = "rule"; may["check"] = ""
    needs["calc"] = "rule"; may["calc"] = ""
    needs["drill"] = "rule n"; may["drill"] = "seed"
    needs["star"] = "rule addr vertex"; may["star"] = "seed"
    needs["verify"] = "rule addr at half"; may["verify"] = "seed"
    forms["rule"] = "chair, p2, p3, ab, halfhex or -"
    forms["edge"] = forms["vertex"] = "a number from 0 to 255"
    forms["seed"] = "a number from 0 to 18446744073709551615"
    forms["grow"] = "a number from 0 to 64"
    forms["path"] = "1 to 1,000 numbers from 0 to 255 with commas between"
    forms["at"] = "four integers up to 1048576 with commas between, as 0,0,0,0"
    forms["half"] = "two numbers from 1 to 4096 with a comma between, as 20,12"
    forms["layers"] = "one to three of svg, list and census with commas between, each at most once"
    forms["glue"] = "yes or no"
    forms["n"] = "a number from 1 to 200"
    command = ARGV[1]
    if (ARGC < 2 || !is_one_of(command, commands)) refuse(0, why_command(command))
    required = needs[command]; allowed = may[command]
    for (i = 2; i < ARGC; i++) {
        key = substr(ARGV[i], 1, index(ARGV[i], "=") - 1)
        value = substr(ARGV[i], index(ARGV[i], "=") + 1)
        if (!is_one_of(key, required " " allowed)) refuse(i - 1, why_key(ARGV[i], key))
        if (key in given) refuse(i - 1, key "= is given twice")
        if (!has_form(key, value)) refuse(i - 1, why_value(key, value))
        given[key]
    }
    n = split(required, names, " ")
    for (i = 1; i <= n; i++) if (!(names[i] in given)) missing = missing (missing ? " " : "") names[i]
    if (missing) refuse(ARGC - 1, command " needs " with_signs(missing))
}
