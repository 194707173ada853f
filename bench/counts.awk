# counts.awk MARKS ROWS: joins the counter's marks with the rows that the benchmark wrote; the tables and the drawing read their costs here.
BEGIN {
    FS = "\t"
    sizes = split("16 64 256", size, " ")
    at_random = "check, references drawn at random"
    split("2600 10000 55000", number, " ")
    for (i = 1; i <= sizes; i++) check_budget[size[i]] = number[i]
}

FILENAME == ARGV[1] { mark[NR] = $1; next }

$1 == "stack" || $1 == "frames" {
    if (!($2 in stack_seen)) { stack_order[++stacks] = $2; stack_seen[$2] = 1 }
    stack[$1, $2, $3] = $4
    next
}

$1 == "answers" {
    if (!($2 in answer_seen)) { answer_order[++lists] = $2; answer_seen[$2] = 1 }
    if ($3 == size[sizes]) answers[$2] = answers[$2] (answers[$2] ? ", " : "") $5 " × " $4
    next
}

{
    instructions = mark[2 * ++pairs] - mark[2 * pairs - 1]
    if ($1 == "nothing") { nothing = instructions; next }
    if (!($1 in seen)) { order[++kinds] = $1; seen[$1] = 1; sized[$1] = $2 }
    instructions -= nothing
    sum[$1, $2, $3] += instructions
    events[$1, $2, $3] += $4
    if ($1 == at_random) add_draw($2, instructions)
}

# The draws of references, of which least, most and how many went over the budget are kept beside the mean.
function add_draw(circuits, instructions) {
    if (!draws[circuits]++ || instructions < least[circuits]) least[circuits] = instructions
    if (instructions > most[circuits]) most[circuits] = instructions
    if (instructions > check_budget[circuits]) over[circuits]++
}

function thousands(n,   digits, out) {
    digits = sprintf("%.0f", n)
    while (length(digits) > 3) { out = "," substr(digits, length(digits) - 2) out; digits = substr(digits, 1, length(digits) - 3) }
    return digits out
}

function cost(what, circuits, side) { return sum[what, circuits, side] / events[what, circuits, side] }
