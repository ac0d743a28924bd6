# Drawings: no edge runs behind a name, and its head stands outside of the names.
library(causal)
own <- function(name) getFromNamespace(name, "causal")
drawn <- list()
utils::assignInNamespace("draw_edge", local({
  real <- own("draw_edge")
  function(edge, places, sizes, bend, is_marked) {
    points <- real(edge, places, sizes, bend, is_marked)
    drawn[[length(drawn) + 1]] <<- list(edge = edge, points = points, places = places, sizes = sizes)
  }
}), "causal")

check_edges <- function(diagram, ...) {
  drawn <<- list()
  plot(diagram, ...)
  stopifnot(length(drawn) == nrow(diagram$edges))
  for (it in drawn) {
    stopifnot(nrow(it$points) > 1)
    for (k in seq_len(nrow(it$places))) stopifnot(!any(own("inside")(it$points, it$places[k, ], it$sizes[k, ])))
    ends <- it$points[c(1, nrow(it$points)), ]
    wanted <- match(c(it$edge$from, it$edge$to), rownames(it$places))
    near <- vapply(1:2, function(k) own("inside")(ends[k, , drop = FALSE], it$places[wanted[k], ], 1.3 * it$sizes[wanted[k], ]), NA)
    stopifnot(near)
  }
  # each name stands within the drawing, and each edge
  for (it in drawn) stopifnot(it$points > 0, it$points[, 1] < par("usr")[2], it$points[, 2] < par("usr")[4])
  sides <- rep(par("usr"), each = nrow(it$places))
  around <- cbind(it$places[, 1] - it$sizes[, 1], it$places[, 1] + it$sizes[, 1], it$places[, 2] - it$sizes[, 2], it$places[, 2] + it$sizes[, 2])
  stopifnot(around[, c(1, 3)] > matrix(sides, nrow(around))[, c(1, 3)], around[, c(2, 4)] < matrix(sides, nrow(around))[, c(2, 4)])
}

pdf(NULL, width = 12, height = 7)
check_edges(causal_diagram("dag { A -> B -> C -> D A -> C A -> D B -> D A <-> D A <-> C }"))
check_edges(causal_diagram("dag { X [exposure] Y [outcome] W -> Z -> X -> Y W <-> X W <-> Y }"))
row <- rbind(A = c(0, 0), B = c(1, 0), C = c(2, 0), D = c(3, 0))
check_edges(causal_diagram("dag { A -> B -> C -> D A -> C A -> D B -> D B <-> D }"), layout = row)
check_edges(causal_diagram("dag { \"age at diagnosis\" -> \"the new drug\" -> recovery \"age at diagnosis\" -> recovery recovery <-> \"the new drug\" }"))
long <- causal_diagram("dag { \"the age of the patient at diagnosis\" -> \"recovery within a year\" }")
check_edges(long)
invisible(dev.off())

# Where DAGitty drew the vertices, there they stand, also in drawings of answers
laid <- causal_diagram("dag {\nbb=\"0,0,1,1\"\nA [exposure,pos=\"-1,0.5\"]\n\"a b\" [outcome, pos=\"2.5,-1e-1\"]\nC [pos=\"0,2\"]\nC -> A [pos=\"9,9\"]\nC -> \"a b\"\nA -> \"a b\"\n}")
stopifnot(identical(laid$positions, rbind(A = c(x = -1, y = -0.5), "a b" = c(2.5, 0.1), C = c(0, -2))))
pdf(NULL, width = 12, height = 7)
stopifnot(identical(plot(laid), laid$positions), identical(plot(separated(laid, "A", "a b")), laid$positions))
stopifnot(!identical(plot(laid, layout = "layers"), laid$positions))
check_edges(laid)
stopifnot(is.null(causal_diagram("dag { A [pos=\"1,1\"] B A -> B }")$positions))
plot(paths(laid), which = 2)
invisible(dev.off())
