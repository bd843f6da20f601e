# Turns a report of `teams solve` into an indented list, a line for each test and each end, that one can print and hold:
#   teams solve MODEL | awk -f examples/tree.awk
# The tree stands in the report in preorder. `depths` and `answers` are a stack of the branches that are still to come, the next one on top, each with
# its depth and with the answer that leads to it.
$1 == "class" { class = $2 }
$1 == "state" { names[class] = names[class] (names[class] == "" ? "" : " or ") $3 }
$1 == "test" { tests[$2] = $4 " (costs " $3 ")" }
function indent(depth, text) {
  for (text = ""; depth > 0; depth--) text = text "    "
  return text
}
function branch(depth, answer) {
  depths[++top] = depth
  answers[top] = answer
}
function line(text) {
  printf "%s%s%s\n", indent(depths[top]), answers[top], text
}
BEGIN { branch(0, "") }
$1 == "ask" {
  line("ask " tests[$2])
  depth = depths[top--] + 1
  branch(depth, "fails: ")
  branch(depth, "passes: ")
}
$1 == "leaf" {
  line(names[$2])
  top--
}
