# Warnings of what may be a typing error. A text may be refused by the library, or read: then it is warned of.
library(causal)
same <- function(a, b) stopifnot(identical(a, b))
# What is warned of, or NULL where the text is refused.
doubts <- function(text) {
  found <- character()
  read <- tryCatch(withCallingHandlers(causal_diagram(text), causal_doubt = function(doubt) {
    found <<- c(found, conditionMessage(doubt))
    invokeRestart("muffleWarning")
  }), causal_graph_fault = function(fault) NULL)
  if (!is.null(read)) found
}

for (text in c("dag { X [exposure] Y [outcome] Z -> X Z => Y X -> Y }", "dag { X = -> Y }", "dag { X =--> Y }", "dag { A -> B C => D E -> F }",
               "dag { X = { Y }")) {
  found <- doubts(text)
  if (!is.null(found)) same(sum(grepl("was dropped", found)), 1L)
}
found <- doubts("dag { X -> Y\n  \"a b\" = \"1 ] = 2\" }")
stopifnot(length(found) == 1, startsWith(found, "'\"a b\" = \"1 ] = 2\"' at line 2, column 3 says nothing"))
same(length(doubts("dag { a=1;b=2 c =3 }")), 3L)
found <- doubts("dag { \u00e5 -> b \u00e5 = \u00d6 }")
stopifnot(grepl("at line 1, column 14 ", found))

# What is in its place
for (text in c("dag { bb=\"0,0,1,1\" X [pos=\"1,2\"] X -> Y }", "dag { bb=0 X }", "dag { \"bb\"=\"0\" \"a=b\" -> \"c [\" \"] = 3\" }", "dag { + -> Y }",
               "dag {\r\nbb = \"0,0,1,1\"\r\nX [exposure,pos=\"-1.2,0.5\"]\r\nX -> Y [pos=\"0,1\" curve=2]\r\n}\r\n", "dag { x* \u00c5 1 }"))
  same(doubts(text), character())

# Names of signs
for (name in c("\u2192", "+", "!&")) {
  found <- doubts(paste("dag { X", name, "Y }"))
  if (!is.null(found)) stopifnot(length(found) == 1, startsWith(gsub("\"", "", found), paste("the vertex", name, "has no edge")))
}
same(length(doubts("dag { \"--\" \"=\" X }")), 2L)

# A diagram that is made of another isn't warned of again
diagram <- suppressWarnings(causal_diagram("dag { X=1 Y }"))
options(warn = 2)
stopifnot(inherits(project(diagram), "causal_diagram"), inherits(separated("dag { X Y }", "X", "Y"), "causal_separation"))
