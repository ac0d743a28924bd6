# A diagram that is kept: each question on it is answered as on its text, with the same status, answer and line.
library(causal)
same <- function(a, b) stopifnot(identical(a, b))
keep <- getFromNamespace("keep", "causal")
run_on <- getFromNamespace("run_on", "causal")

many <- paste0("v", 1:64)
texts <- c(
  "dag { }",
  "dag { A }",
  "dag { X [exposure] Y [outcome] X -> M -> Y X <-> Y }",
  "dag { X [exposure] Y [outcome] Z [adjusted] X -> Y X <-> Y Z -> X }",
  "dag { U [latent] Y [outcome] \"a, b\" [adjusted] X [exposure,pos=\"1,2\"] U -> X U -> Y \"a, b\" -> X X -> Y }",
  "dag { \u00c5 [exposure] \"\U1F600 -> x\" [outcome] \u00c5 -> \"\u4e2d }\" -> \"\U1F600 -> x\" }",
  paste0("dag { v1 [exposure] v64 [outcome] ", paste(many, collapse = " -> "), " v1 <-> v64 }")
)
certificate <- identify_effect(texts[3])$certificate
counts <- "X,M,Y\n0,0,0\n0,1,1\n1,0,1\n1,1,0\n0,0,1\n1,1,1\n"
questions <- list(
  c("graph", "diagram"), c("graph", "diagram", "--project"), c("separate", "diagram"), c("separate", "diagram", "--x=X", "--y=Y", "--given=M"),
  c("separate", "diagram", "--x=v2", "--y=v63", "--given=v1,v30"), c("separate", "diagram", "--x=U", "--y=Y"),
  c("rule", "diagram", "--rule", "2", "--y=Y", "--z=X"), c("identify", "diagram"), c("identify", "diagram", "--certificate"),
  c("identify", "diagram", "--latex"), c("identify", "diagram", "--given=M"), c("check", "diagram", "certificate"), c("check", "diagram", "absent"),
  c("adjust", "diagram"), c("adjust", "diagram", "--most", "1"), c("adjust", "diagram", "--set={}"), c("implications", "diagram"),
  c("implications", "diagram", "counts"), c("evaluate", "diagram", "counts"), c("evaluate", "diagram", "counts", "--exact"),
  c("surrogate", "diagram", "--experiments=M"), c("equivalent", "diagram", "other"), c("equivalent", "diagram", "certificate"),
  c("nothing", "diagram"), c("separate", "diagram", "--x"), c("graph", "diagram", "--json"), c("separate", "diagram", "--x=U", "--y=Y", "--json"),
  c("identify", "diagram", "--certificate", "--json"), c("evaluate", "diagram", "counts", "--json"), c("check", "diagram", "certificate", "--json")
)
inputs <- list(certificate = certificate, counts = counts, other = "dag { X -> M -> Y }")
statuses <- integer()
for (text in texts) {
  diagram <- causal_diagram(text)
  for (words in questions) {
    answer <- run_on(words, inputs, keep(diagram))
    same(answer, causal_run(words, c(list(diagram = text), inputs)))
    statuses <- union(statuses, answer$status)
  }
  # an input of the same name isn't the diagram
  same(run_on(c("graph", "diagram"), list(diagram = "dag { Q }"), keep(diagram)), causal_run(c("graph", "diagram"), list(diagram = text)))
}
same(sort(statuses), c(0:4, 6L))

# One is kept, until another is asked
fork <- causal_diagram("dag { A <- B -> C }")
turned <- causal_diagram("dag { B A -> C <- B }")
for (round in 1:3) {
  same(c(is_separated(fork, "A", "C"), is_separated(turned, "A", "B")), c(FALSE, TRUE))
  same(c(separated(fork, "A", "C", "B")$holds, separated(turned, "A", "B", "C")$holds), c(TRUE, FALSE))
}
same(keep(fork), keep(fork))
stopifnot(!identical(keep(fork), keep(turned)))

# A text that is refused isn't kept, and the one before stays
kept <- keep(fork)
broken <- structure(list(text = "dag { A -> }"), class = "causal_diagram")
same(keep(broken), NULL)
fault <- tryCatch(format(broken), causal_graph_fault = identity)
same(fault$number, 3L)
same(keep(fork), kept)

# What the library didn't keep is refused
caught <- try(run_on(c("graph", "diagram"), list(), list(kept[[1]], charToRaw("A\n"))), silent = TRUE)
stopifnot(grepl("isn't what the library kept", caught))

# Whether an effect has a formula, alone
bow <- causal_diagram("dag { X -> Y -> Z X <-> Y U [latent] U -> X }")
same(c(is_identifiable(bow, "X", "Y"), is_identifiable(bow, "Y", "Z"), is_identifiable(bow, c("X", "Y"), "Z")), c(FALSE, TRUE, TRUE))
for (sets in list(list("U", "Y"), list("X", character()), list("X", "X"), list("X", "Q"), list(c("X", "X"), "Y"))) {
  faults <- lapply(list(is_identifiable, identify_effect), function(ask) tryCatch(ask(bow, sets[[1]], sets[[2]]), causal_fault = conditionMessage))
  stopifnot(is.character(faults[[1]]), identical(faults[[1]], faults[[2]]))
}

# Whether a set may be adjusted for, alone
fork <- causal_diagram("dag { Z -> X Z -> Y X -> M -> Y U [latent] U -> M }")
same(c(is_admissible(fork, "Z", "X", "Y"), is_admissible(fork, character(), "X", "Y"), is_admissible(fork, c("Z", "M"), "X", "Y")), c(TRUE, FALSE, FALSE))
for (sets in list(list("U", "X", "Y"), list("Z", "X", character()), list("X", "X", "Y"), list("Q", "X", "Y"), list(c("Z", "Z"), "X", "Y"))) {
  faults <- lapply(list(is_admissible, adjusts), function(ask) tryCatch(ask(fork, sets[[1]], sets[[2]], sets[[3]]), causal_fault = conditionMessage))
  stopifnot(is.character(faults[[1]]), identical(faults[[1]], faults[[2]]))
}
