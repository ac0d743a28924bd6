# What can be read off a drawing: relatives of vertices, paths between two, and the direct effect of one on another.

# The vertices that are reached from some by directed edges, these among them; latent ones too.
reached <- function(diagram, from, forward) {
  edges <- diagram$edges[diagram$edges$edge == "->", ]
  ends <- if (forward) edges[c("from", "to")] else edges[c("to", "from")]
  found <- from
  repeat {
    more <- setdiff(ends[[2]][ends[[1]] %in% found], found)
    if (!length(more)) return(diagram$vertices$name[diagram$vertices$name %in% found])
    found <- c(found, more)
  }
}

known_vertices <- function(diagram, of) {
  of <- enc2utf8(as.character(of))
  lacking <- setdiff(of, diagram$vertices$name)
  if (length(lacking)) refuse("the diagram has no vertex ", lacking[1], meant(lacking[1], diagram$vertices$name), "; it has ", listed(diagram$vertices$name),
                              kind = "unknown_vertex", told = list(names = lacking))
  of
}

parents <- function(diagram, of) {
  diagram <- as_causal_diagram(diagram)
  of <- known_vertices(diagram, of)
  setdiff(diagram$vertices$name[diagram$vertices$name %in% diagram$edges$from[diagram$edges$edge == "->" & diagram$edges$to %in% of]], of)
}

children <- function(diagram, of) {
  diagram <- as_causal_diagram(diagram)
  of <- known_vertices(diagram, of)
  setdiff(diagram$vertices$name[diagram$vertices$name %in% diagram$edges$to[diagram$edges$edge == "->" & diagram$edges$from %in% of]], of)
}

ancestors <- function(diagram, of) {
  diagram <- as_causal_diagram(diagram)
  reached(diagram, known_vertices(diagram, of), FALSE)
}

descendants <- function(diagram, of) {
  diagram <- as_causal_diagram(diagram)
  reached(diagram, known_vertices(diagram, of), TRUE)
}

# The paths between two vertices of the observed graph, the shortest first, at most `most`. Which of them are open is read off their
# colliders; that a set separates is the library's to say.
paths <- function(diagram, from = NULL, to = NULL, given = character(), most = 100) {
  diagram <- as_causal_diagram(diagram)
  graph <- project(diagram)
  from <- one_vertex(graph, if (is.null(from)) has_role(graph, "exposure") else from, "from")
  to <- one_vertex(graph, if (is.null(to)) has_role(graph, "outcome") else to, "to")
  given <- known_vertices(graph, given)
  check_whole("most", most, 1)
  found <- walks(graph, from, to, most)
  opened <- vapply(found$walks, is_open, NA, graph = graph, given = given)
  columns <- list(path = vapply(found$walks, path_text, ""), open = opened,
                  directed = vapply(found$walks, function(walk) all(walk$marks == "->"), NA), vertices = I(lapply(found$walks, `[[`, "vertices")))
  structure(frame_of(columns), class = c("causal_paths", "data.frame"), more = found$more, given = given, walks = found$walks, diagram = diagram)
}

one_vertex <- function(diagram, name, argument) {
  if (length(name) != 1) refuse("`", argument, "` is one vertex")
  known_vertices(diagram, name)
}

path_text <- function(walk) paste(c(printed(walk$vertices), walk$marks)[order(c(seq_along(walk$vertices), seq_along(walk$marks) + 0.5))], collapse = " ")

# All paths without a vertex twice, by length.
walks <- function(graph, from, to, most) {
  edges <- graph$edges
  steps <- frame_of(list(from = c(edges$from, edges$to), to = c(edges$to, edges$from),
                         mark = c(edges$edge, ifelse(edges$edge == "->", "<-", "<->"))))
  open <- list(list(vertices = from, marks = character()))
  found <- list()
  while (length(open) && length(found) <= most && length(open) < 20000) {
    longer <- lapply(open, function(walk) {
      here <- steps[steps$from == walk$vertices[length(walk$vertices)] & !steps$to %in% walk$vertices, ]
      lapply(seq_len(nrow(here)), function(k) list(vertices = c(walk$vertices, here$to[k]), marks = c(walk$marks, here$mark[k])))
    })
    longer <- unlist(longer, recursive = FALSE)
    arrived <- vapply(longer, function(walk) walk$vertices[length(walk$vertices)] == to, NA)
    found <- c(found, longer[arrived])
    open <- longer[!arrived]
  }
  list(walks = utils::head(found, most), more = length(found) > most || length(open) > 0)
}

is_open <- function(walk, graph, given) {
  inner <- seq_along(walk$vertices)[-c(1, length(walk$vertices))]
  all(vapply(inner, function(k) {
    is_collider <- walk$marks[k - 1] %in% c("->", "<->") && walk$marks[k] %in% c("<-", "<->")
    if (is_collider) any(reached(graph, walk$vertices[k], TRUE) %in% given) else !walk$vertices[k] %in% given
  }, NA))
}

print.causal_paths <- function(x, ...) {
  if (!nrow(x)) cat("no path\n")
  for (k in seq_len(nrow(x))) cat(if (x$open[k]) "open   " else "closed ", x$path[k], "\n", sep = "")
  if (isTRUE(attr(x, "more"))) cat("and more\n")
  invisible(x)
}

as.data.frame.causal_paths <- function(x, ...) frame_of(list(path = x$path, open = x$open, directed = x$directed))

# The observed graph with one of the paths.
plot.causal_paths <- function(x, which = 1, ...) {
  if (!which %in% seq_len(nrow(x))) refuse("`which` is the number of a path, from 1 to ", nrow(x))
  plot(project(attr(x, "diagram")), path = attr(x, "walks")[[which]], ...)
}

# The controlled direct effect: all other parents of the outcome are set too.
direct_effect <- function(diagram, x = NULL, y = NULL, short = FALSE) {
  diagram <- as_causal_diagram(diagram)
  observed <- observed_names(diagram)
  x <- one_vertex(diagram, if (is.null(x)) has_role(diagram, "exposure") else x, "x")
  y <- one_vertex(diagram, if (is.null(y)) has_role(diagram, "outcome") else y, "y")
  identify_effect(diagram, c(x, setdiff(intersect(parents(project(diagram), y), observed), x)), y, short = short)
}

# Records of a model on the diagram that is drawn by chance: each vertex has some levels, and by its parents its own chances.
simulate.causal_diagram <- function(object, nsim = 100, seed = NULL, levels = 2, strength = 2, ...) {
  check_whole("nsim", nsim, 1)
  check_whole("levels", levels, 2, 20)
  if (!is.numeric(strength) || length(strength) != 1 || !is.finite(strength)) refuse("`strength` is a number")
  found <- with_seed(seed_or_drawn(seed), drawn_records(object, nsim, levels, strength))
  frame_of(found[observed_names(object)])
}

drawn_records <- function(diagram, number, levels, strength) {
  edges <- diagram$edges
  both <- which(edges$edge == "<->")
  hidden <- lapply(both, function(k) stats::rnorm(number))
  values <- list()
  for (name in in_order(diagram)) {
    causes <- values[edges$from[edges$edge == "->" & edges$to == name]]
    score <- Reduce(`+`, lapply(causes, function(cause) strength * stats::runif(1, -1, 1) * cause / (levels - 1)), rep(0, number))
    for (k in seq_along(both)) if (name %in% edges[both[k], c("from", "to")]) score <- score + stats::runif(1, 0.3, 1) * hidden[[k]]
    score <- score + stats::rlogis(number)
    cuts <- stats::quantile(stats::rlogis(2000), seq_len(levels - 1) / levels, names = FALSE) + stats::runif(1, -0.5, 0.5)
    values[[name]] <- findInterval(score, sort(cuts))
  }
  values
}

# The vertices, each after its parents.
in_order <- function(diagram) {
  left <- diagram$vertices$name
  edges <- diagram$edges[diagram$edges$edge == "->", ]
  found <- character()
  while (length(left)) {
    free <- left[!left %in% edges$to[edges$from %in% left]]
    found <- c(found, free)
    left <- setdiff(left, free)
  }
  found
}
