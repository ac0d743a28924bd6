# Diagrams: a text that the library reads, with its vertices and edges as the library tells them.

causal_diagram <- function(text, format = c("dag", "dot", "gml"), ...) {
  if (inherits(text, "causal_diagram")) return(text)
  format <- one_of(format)
  if (format == "dag" && ...length()) refuse("the text of a diagram has its own marks; none are given beside it")
  bytes <- as_bytes(text)
  switch(format, dag = diagram_of(bytes), dot = causal_diagram(read_dot(form_bytes(bytes), ...)), gml = causal_diagram(read_gml(form_bytes(bytes), ...)))
}

# The text of bytes in another form, which may begin with a mark of the order of bytes.
form_bytes <- function(bytes) {
  if (length(bytes) > 2 && identical(bytes[1:3], as.raw(c(0xef, 0xbb, 0xbf)))) bytes <- bytes[-(1:3)]
  as_text(bytes)
}

# The form of a file is told by the end of its name, unless it is given.
read_diagram <- function(file, format = NULL, ...) {
  is_connection <- inherits(file, "connection")
  if (!is_connection && (!is.character(file) || length(file) != 1)) refuse("`file` is the name of a file, or a connection")
  if (!is_connection && !file.exists(file)) refuse("there is no file ", file, kind = "read_fault")
  end <- if (is_connection) "" else tolower(sub("^.*[.]", "", basename(file)))
  if (is.null(format)) format <- switch(end, dot = , gv = "dot", gml = "gml", "dag")
  text <- if (is_connection) readLines(file, encoding = "UTF-8", warn = FALSE) else readBin(file, "raw", n = file.size(file))
  causal_diagram(text, format, ...)
}

diagram_of <- function(bytes) {
  if (any(bytes == 0)) refuse("the text of a diagram has a null byte in it, which R's texts can't hold")
  diagram <- new_diagram(as_text(bytes), object_of(ask("graph", list(text = bytes))))
  warn_of_doubts(diagram$text, diagram)
  diagram
}

new_diagram <- function(text, object, positions = NULL) {
  read <- read_graph(object)
  if (is.null(positions)) positions <- positions_of(text, read$vertices$name)
  structure(c(list(text = text), read, if (!is.null(positions)) list(positions = positions)), class = "causal_diagram")
}

as_causal_diagram <- function(x, ...) UseMethod("as_causal_diagram")

as_causal_diagram.causal_diagram <- function(x, ...) x

as_causal_diagram.character <- function(x, ...) causal_diagram(x)

# An object of the package dagitty is the text of its graph.
as_causal_diagram.dagitty <- function(x, ...) causal_diagram(as.character(unclass(x)))

as_causal_diagram.matrix <- function(x, bidirected = NULL, ...) {
  names <- names_of_matrix(x)
  edges <- edges_of_matrix(x, names, "->")
  if (!is.null(bidirected)) {
    if (!identical(dim(bidirected), dim(x)) || anyNA(bidirected)) refuse("`bidirected` has to have the size of the adjacency matrix")
    joined <- bidirected != 0 | t(bidirected != 0)
    edges <- rbind(edges, edges_of_matrix(joined & upper.tri(joined, diag = TRUE), names, "<->"))
  }
  causal_diagram(graph_text(names, edges, ...))
}

as_causal_diagram.data.frame <- function(x, vertices = character(), ...) {
  if (!all(c("from", "to") %in% names(x))) refuse("a data frame of edges has the columns `from` and `to`, and may have `edge`")
  marks <- if (is.null(x$edge)) rep("->", nrow(x)) else as.character(x$edge)
  edges <- data.frame(from = as.character(x$from), edge = marks, to = as.character(x$to))
  causal_diagram(graph_text(unique(c(vertices, rbind(edges$from, edges$to))), edges, ...))
}

as_causal_diagram.default <- function(x, ...) refuse("no diagram can be made of an object of the class ", class(x)[1])

names_of_matrix <- function(x) {
  if (nrow(x) != ncol(x)) refuse("an adjacency matrix has as many rows as columns")
  if (anyNA(x)) refuse("an adjacency matrix has no missing values")
  names <- if (is.null(colnames(x))) rownames(x) else colnames(x)
  if (is.null(names)) refuse("an adjacency matrix needs the names of the vertices as its row names or column names")
  if (!is.null(rownames(x)) && !identical(rownames(x), names)) refuse("the row names and the column names of the matrix differ")
  names
}

edges_of_matrix <- function(x, names, mark) {
  at <- which(x != 0, arr.ind = TRUE)
  at <- at[order(at[, 1], at[, 2]), , drop = FALSE]
  data.frame(from = names[at[, 1]], edge = rep(mark, nrow(at)), to = names[at[, 2]])
}

# The text of a graph with the given names, edges and roles. All names stand between quotes.
graph_text <- function(names, edges, exposure = character(), outcome = character(), adjusted = character(), latent = character()) {
  roles <- list(exposure = exposure, outcome = outcome, adjusted = adjusted, latent = latent)
  check_roles(names, roles)
  all <- unique(enc2utf8(as.character(names)))
  check_names(c(all, edges$from, edges$to))
  if (any(grepl("[\r\n]", all))) refuse("no name of a vertex has a line feed in it")
  if (!all(edges$edge %in% c("->", "<-", "<->"))) refuse("an edge is ->, <- or <->")
  flags <- vapply(all, function(name) paste(names(roles)[vapply(roles, function(role) name %in% role, NA)], collapse = ","), "")
  paste(c("dag {", paste0('"', all, '"', ifelse(nzchar(flags), paste0(" [", flags, "]"), "")),
          if (nrow(edges)) paste0('"', edges$from, '" ', edges$edge, ' "', edges$to, '"'), "}"), collapse = "\n")
}

# A role is one of a vertex of the graph: else a typing error would make a vertex of its own.
check_roles <- function(names, roles) {
  for (role in names(roles)) {
    lacking <- setdiff(enc2utf8(as.character(roles[[role]])), enc2utf8(as.character(names)))
    if (length(lacking)) refuse("`", role, "` names ", lacking[1], ", which is no vertex of the edges", meant(lacking[1], names),
                                "; vertices without an edge stand in `vertices`", kind = "unknown_vertex", told = list(names = lacking))
  }
}

project <- function(diagram) {
  diagram <- as_causal_diagram(diagram)
  object <- object_of(ask("graph", diagram, "--project"))
  new_diagram(sub("\n$", "", object$text), object, diagram$positions)
}

has_role <- function(diagram, role) diagram$vertices$name[diagram$vertices$role == role]

as.character.causal_diagram <- function(x, ...) x$text

format.causal_diagram <- function(x, ...) lines_of(object_of(ask("graph", x))$text)

print.causal_diagram <- function(x, ...) {
  cat("causal diagram of ", counted(nrow(x$vertices), "vertex", "vertices"), "\n", sep = "")
  writeLines(format(x))
  invisible(x)
}

summary.causal_diagram <- function(object, ...) {
  roles <- c("exposure", "outcome", "adjusted", "latent")
  structure(list(vertices = object$vertices$name, directed = sum(object$edges$edge == "->"), bidirected = sum(object$edges$edge == "<->"),
                 roles = stats::setNames(lapply(roles, has_role, diagram = object), roles)), class = "summary.causal_diagram")
}

print.summary.causal_diagram <- function(x, ...) {
  cat("causal diagram: ", counted(length(x$vertices), "vertex", "vertices"), ", ", counted(x$directed, "directed edge"), ", ",
      counted(x$bidirected, "bidirected edge"), "\n", sep = "")
  for (role in names(x$roles)) if (length(x$roles[[role]])) cat("  ", role, ": ", paste(x$roles[[role]], collapse = ", "), "\n", sep = "")
  invisible(x)
}

counted <- function(number, one, many = paste0(one, "s")) paste(number, if (number == 1) one else many)
