# Diagrams in other forms: DOT, GML, graphs of igraph, objects of dagitty and ggdag, and files.
library(causal)
same <- function(a, b) stopifnot(identical(a, b))
refusal <- function(call) conditionMessage(tryCatch(call, error = identity))
refuses <- function(why, call) if (!grepl(why, refusal(call))) stop("refused otherwise: ", refusal(call))
is_diagram <- function(found, wanted) same(format(found), format(causal_diagram(wanted)))
dot <- function(text, ...) causal_diagram(text, format = "dot", ...)
gml <- function(text, ...) causal_diagram(text, format = "gml", ...)

# DOT: what stands in one, edges, marks
text <- c("# a comment", "strict digraph \"my graph\" {", "  graph [label=<a <b>name</b> of>]; rankdir=LR // another",
          "  node [shape=box, fontsize=11.5] edge [color=\"red\"]", "  \"a \\\"b\\\"\" [label=\"not the name\"];", "}", "/* the end", " */")
refuses("double quote", dot(text))
is_diagram(dot(gsub("\\\"b\\\"", "b", text, fixed = TRUE)), "dag { \"a b\" }")
is_diagram(dot(paste("digraph { a -> b -> {c; \"d e\"} -> 5:n; subgraph cluster_0 { edge [dir=back]; f -> a } g -> f",
                     "h -> g [dir=both style=dashed] i -> h [bidirected=true]; -.5 -> i [dir=forward] subgraph { j k } -> a }")),
           paste("dag { a b c \"d e\" 5 f g h i \"-.5\" j k a -> b b -> c b -> \"d e\" c -> 5 \"d e\" -> 5 a -> f g -> f h <-> g i <-> h",
                 "\"-.5\" -> i j -> a k -> a }"))
is_diagram(dot(paste("digraph { X [role=exposure] U [latent=\"True\"] V [observed=no] W [observed=yes latent=0] node [latent=1] Q",
                     "node [latent=0] X -> \u00d6 }"), outcome = "\u00d6"),
           "dag { X [exposure] U [latent] V [latent] W Q [latent] \u00d6 [outcome] X -> \u00d6 }")
for (wrong in list(c("graph { a -- b }", "isn't directed"), c("digraph { a -- b }", "no direction"), c("digraph { a -> b [dir=none] }", "no direction"),
                   c("digraph { a -> b [arrowhead=none] }", "no direction"), c("digraph { a -> b [dir=up] }", "isn't known"),
                   c("digraph { a ->", "ends too early"), c("digraph { a -> b } c", "no DOT at c"), c("digraph { a; & }", "no DOT from here on: &"),
                   c("digraph { <b>bold</b> -> a }", "no DOT|named by markup"), c("digraph { a [label=<b] }", "no DOT from here on"),
                   c("dag { a -> b }", "no DOT at dag"), c("", "ends too early"), c("digraph { a [role=cause] }", "a vertex can be")))
  refuses(wrong[2], dot(wrong[1]))
refuses("have a cycle", dot("digraph { a -> b -> a }"))

# Texts of another kind, and comments, are named
for (wrong in list(c("digraph { a -> b }", "is DOT"), c("strict digraph { a -> b }", "is DOT"), c("pdag { a -- b }", "is a pdag"),
                   c("pag { a @-> b }", "is a pag"), c(" mag { a -> b }", "is a mag"), c("graph { a -- b }", "without directions"),
                   c("tree { a }", "does not begin with dag"), c("// a comment\ndag { a }", "a comment stands here"),
                   c("dag { a /* here */ }", "a comment stands here"), c("dag { a # here\n }", "a comment stands here"), c("dag { a \"b }", "no token")))
  refuses(wrong[2], causal_diagram(wrong[1]))

# GML
text <- c("Creator \"a program\"", "# a comment", "graph [ directed 1 comment \"a -> b\"",
          "  node [ id \"u\" label \"U\" observed \"no\" graphics [ x 1.5e2 y -2 ] ]", "  node [ id 7 name \"x &amp; &#xD6;\" ]", "  node [ id -1 ]",
          "  edge [ source \"u\" target 7 value 0.5 ]", "  edge [ source 7 target -1 bidirected 1 ]", "]")
is_diagram(gml(text, outcome = "x & \u00d6"), "dag { U [latent] \"x & \u00d6\" [outcome] \"-1\" U -> \"x & \u00d6\" \"x & \u00d6\" <-> \"-1\" }")
hidden <- paste("graph [ directed 1 node [ id 0 name \"X\" ] node [ id 1 name \"Y\" ] edge [ source 0 target 1 description \"\" ]",
                "edge [ source 0 target 1 description \"U\" ]")
is_diagram(gml(paste(hidden, "edge [ source 1 target 0 description \"U\" ] ]")), "dag { X -> Y X <-> Y }")
refuses("none back", gml(paste(hidden, "]")))
refuses("isn't directed", gml(sub(" directed 1", "", text)))
refuses("vertex 8", gml(sub("target 7", "target 8", text)))
refuses("same number", gml(sub("id -1", "id 7", text)))
refuses("isn't closed", gml(text[-length(text)]))
refuses("closed twice", gml(c(text, "]")))
refuses("with its value", gml(sub("\"U\"", "]", text)))
refuses("no graph", gml("node [ id 1 ]"))
refuses("no GML", gml("graph { a -- b }"))

# Files: the form is told by the name, or is given
path <- function(name, text) {
  file <- file.path(tempdir(), name)
  writeLines(enc2utf8(text), file, useBytes = TRUE)
  file
}
wanted <- "dag { X [exposure] \u00d6 X -> \u00d6 }"
is_diagram(read_diagram(path("a.DOT", "digraph { X -> \u00d6 }"), exposure = "X"), wanted)
is_diagram(read_diagram(path("a.gv", "digraph { X -> \u00d6 }"), exposure = "X"), wanted)
is_diagram(read_diagram(path("a.gml", c("\ufeffgraph [ directed 1 node [ id 1 label \"X\" ] node [ id 2 label \"&#214;\" ]",
                                        "edge [ source 1 target 2 ] ]")), exposure = "X"), wanted)
for (name in c("a.dag", "a.txt", "a")) is_diagram(read_diagram(path(name, wanted)), wanted)
is_diagram(read_diagram(path("b.txt", "digraph { X -> \u00d6 }"), "dot", exposure = "X"), wanted)
refuses("its own marks", read_diagram(path("a.dag", wanted), exposure = "X"))
refuses("`format` is", read_diagram(path("a.dag", wanted), "png"))

# Objects of dagitty are texts; a tidy diagram of ggdag has a row for each edge
is_diagram(as_causal_diagram(structure("dag {\nX [exposure,pos=\"0,1\"]\nX -> Y\n}\n", class = "dagitty")), "dag { X [exposure] X -> Y }")
refuses("is a pdag", as_causal_diagram(structure("pdag { X -- Y }", class = "dagitty")))
rows <- data.frame(name = c("Z", "Z", "X", "Y", "X"), x = 1:5, y = 1, direction = factor(c("->", "->", "->", NA, "<->")), to = c("X", "Y", "Y", NA, "Y"))
dag <- structure("dag { X [exposure] Y [outcome] Z -> {X Y} X -> Y X <-> Y }", class = "dagitty")
tidied <- structure(list(data = rows, dag = dag), class = "tidy_dagitty")
is_diagram(as_causal_diagram(tidied), "dag { Z X [exposure] Y [outcome] Z -> X Z -> Y X -> Y X <-> Y }")
tidied$data$status <- c(NA, NA, NA, NA, "exposure")
tidied$data$adjusted <- c("adjusted", "adjusted", rep("unadjusted", 3))
is_diagram(as_causal_diagram(tidied, outcome = "Y"), "dag { Z [adjusted] X [exposure] Y [outcome] Z -> X Z -> Y X -> Y X <-> Y }")
tidied$data$direction <- "--"
refuses("as in a pdag", as_causal_diagram(tidied))
refuses("has the columns", as_causal_diagram(structure(list(data = rows["name"]), class = "tidy_dagitty")))
# (packages that Debian doesn't have aren't suggested, so they are named as texts)
call_of <- function(package, name) getExportedValue(package, name)
if (nzchar(system.file(package = "dagitty"))) {
  is_diagram(as_causal_diagram(call_of("dagitty", "dagitty")("dag { X [exposure] Z -> X -> Y <- Z }")), "dag { X [exposure] Y Z X -> Y Z -> X Z -> Y }")
} else cat("skipped: forms: no package dagitty\n")
if (nzchar(system.file(package = "ggdag"))) {
  is_diagram(as_causal_diagram(call_of("ggdag", "tidy_dagitty")(call_of("ggdag", "dagify")(Y ~ X, exposure = "X"))), "dag { X [exposure] Y X -> Y }")
} else cat("skipped: forms: no package ggdag\n")

# Graphs of igraph
if (requireNamespace("igraph", quietly = TRUE)) {
  graph <- igraph::graph_from_literal(X -+ M, M -+ Y, Y -+ X, X -+ Y)
  graph <- igraph::set_edge_attr(graph, "description", value = ifelse(igraph::as_ids(igraph::E(graph)) %in% c("X|Y", "Y|X"), "U", ""))
  graph <- igraph::set_vertex_attr(graph, "role", value = c("exposure", NA, ""))
  is_diagram(as_causal_diagram(graph, outcome = "Y"), "dag { X [exposure] M Y [outcome] X -> M M -> Y X <-> Y }")
  is_diagram(as_causal_diagram(igraph::make_graph(c(1, 2)), exposure = "1"), "dag { 1 [exposure] 2 1 -> 2 }")
  is_diagram(as_causal_diagram(igraph::make_empty_graph(1)), "dag { 1 }")
  graph <- igraph::make_graph(~ X -+ Y, Z -+ Y)
  igraph::V(graph)$latent <- c(0, 0, 1)
  for (form in c("gml", "dot")) {
    file <- file.path(tempdir(), paste0("graph.", form))
    igraph::write_graph(graph, file, form)
    is_diagram(read_diagram(file), if (form == "gml") "dag { X Y Z [latent] X -> Y Z -> Y }" else "dag { X Y Z [latent] X -> Y Z -> Y }")
  }
  refuses("isn't directed", as_causal_diagram(igraph::make_graph(~ X - Y)))
} else cat("skipped: forms: no package igraph\n")
