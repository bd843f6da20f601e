# Turns a report of `teams solve` into a drawing for Graphviz:
#   teams solve MODEL | awk -f examples/dot.awk | dot -Tsvg >tree.svg
# Tests are boxes and ends are ovals; the edge says what the test answered. As in `tree.awk`, a stack has what is still to come.
$1 == "class" { class = $2 }
$1 == "state" { names[class] = names[class] (names[class] == "" ? "" : "\\n") $3 }
$1 == "test" { tests[$2] = $4 "\\ncosts " $3 }
function branch(from, answer) {
  froms[++top] = from
  answers[top] = answer
}
function node(shape, text) {
  printf "  n%d [shape=%s, label=\"%s\"];\n", ++nodes, shape, text
  if (froms[top]) printf "  n%d -> n%d [label=\"%s\"];\n", froms[top], nodes, answers[top]
  top--
}
BEGIN {
  print "digraph strategy {"
  branch(0, "")
}
$1 == "ask" {
  node("box", tests[$2])
  asked = nodes
  branch(asked, "fails")
  branch(asked, "passes")
}
$1 == "leaf" { node("oval", names[$2]) }
END { print "}" }
