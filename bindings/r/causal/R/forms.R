# Diagrams in other forms: the DOT text of Graphviz, GML, graphs of the package igraph, and tidy diagrams of the package ggdag. Each is
# read as vertices and edges with what stands beside them, and becomes a text, which the library reads.

as_causal_diagram.igraph <- function(x, ...) {
  if (!requireNamespace("igraph", quietly = TRUE)) refuse("a graph of igraph needs the package igraph")
  if (!igraph::is_directed(x)) refuse("the graph isn't directed")
  beside <- igraph::vertex_attr(x)
  names <- if (!is.null(beside$name)) beside$name else if (!is.null(beside$label)) beside$label else seq_len(igraph::vcount(x))
  ends <- igraph::as_edgelist(x, names = FALSE)
  names <- as.character(names)
  causal_diagram(form_text(names, rows_of(beside, length(names)), names[ends[, 1]], names[ends[, 2]], rows_of(igraph::edge_attr(x), nrow(ends)), ...))
}

# Columns of attributes as a list for each row.
rows_of <- function(columns, rows) lapply(seq_len(rows), function(row) lapply(columns, `[[`, row))

# A tidy diagram has a row for each edge, and one without `to` for each vertex that has no child. Marks are those of its columns
# `status` and `adjusted`, or else those of the diagram that it keeps.
as_causal_diagram.tidy_dagitty <- function(x, ...) {
  rows <- as.data.frame(if (is.data.frame(x)) x else x$data)
  if (!all(c("name", "to", "direction") %in% names(rows))) refuse("a tidy diagram has the columns `name`, `direction` and `to`")
  names <- as.character(rows$name)
  to <- as.character(rows$to)
  has <- !is.na(to)
  edges <- data.frame(from = names[has], edge = as.character(rows$direction)[has], to = to[has])
  if (any(edges$edge == "--")) refuse("an edge has no direction, as in a pdag, which stands for several diagrams; give one of them")
  marks <- tidy_marks(x, rows, names)
  given <- list(...)
  for (role in names(given)) marks[[role]] <- given[[role]]
  causal_diagram(do.call(graph_text, c(list(unique(c(rbind(names, ifelse(has, to, names)))), unique(edges)), marks)))
}

tidy_marks <- function(x, rows, names) {
  of <- function(column, role) unique(names[!is.na(rows[[column]]) & rows[[column]] == role])
  kept <- if (!is.data.frame(x) && inherits(x$dag, "dagitty")) as_causal_diagram(x$dag)
  roles <- c("exposure", "outcome", "latent", "adjusted")
  stats::setNames(lapply(roles, function(role) {
    column <- if (role == "adjusted") "adjusted" else "status"
    if (!is.null(rows[[column]])) of(column, role) else if (!is.null(kept)) intersect(has_role(kept, role), names) else character()
  }), roles)
}

# The text of a diagram of vertices and edges; `own` and `beside` have a list of attributes for each.
form_text <- function(names, own, from, to, beside, exposure = character(), outcome = character(), adjusted = character(), latent = character()) {
  if (anyDuplicated(names)) refuse("two vertices have the same name: ", names[anyDuplicated(names)])
  given <- list(exposure = exposure, outcome = outcome, adjusted = adjusted, latent = latent)
  marks <- lapply(own, marks_in)
  roles <- lapply(stats::setNames(names(given), names(given)), function(role) {
    unique(c(as.character(given[[role]]), names[vapply(marks, function(own) role %in% own, NA)]))
  })
  kinds <- vapply(seq_along(from), function(k) edge_kind(beside[[k]], from[k], to[k]), "")
  is_back <- kinds == "back"
  ends <- data.frame(from = ifelse(is_back, to, from), edge = ifelse(kinds %in% c("both", "hidden"), "<->", "->"), to = ifelse(is_back, from, to))
  is_hidden <- kinds == "hidden"
  lone <- is_hidden & !paste(to, from, sep = "\r") %in% paste(from, to, sep = "\r")[is_hidden]
  if (any(lone)) refuse("the edge from ", from[lone][1], " to ", to[lone][1], " has the description \"U\", and there is none back")
  # two edges that stand for a bidirected one become the same one
  turned <- is_hidden & from > to
  ends[turned, c("from", "to")] <- ends[turned, c("to", "from")]
  do.call(graph_text, c(list(names, unique(ends)), roles))
}

says_yes <- function(value) !is.na(value) & !tolower(trimws(as.character(value))) %in% c("", "0", "no", "false", "none")

# The marks that attributes give a vertex: `role`, or a mark that is true; `observed` that is false says latent.
marks_in <- function(own) {
  roles <- c("exposure", "outcome", "adjusted", "latent")
  role <- if (!is.null(own$role) && !own$role %in% c(NA, "")) as.character(own$role)
  if (!all(role %in% roles)) refuse("a vertex can be ", paste(roles, collapse = ", "), ", and not ", role)
  told <- roles[vapply(roles, function(name) !is.null(own[[name]]) && says_yes(own[[name]]), NA)]
  unique(c(role, told, if (!is.null(own$observed) && !is.na(own$observed) && !says_yes(own$observed)) "latent"))
}

# What an edge is: forward, back, both ways, or one of the two by which the package causaleffect writes a bidirected one.
edge_kind <- function(beside, from, to) {
  text <- function(name, otherwise) if (is.null(beside[[name]]) || beside[[name]] %in% c(NA, "")) otherwise else tolower(as.character(beside[[name]]))
  between <- paste("the edge between", from, "and", to)
  direction <- text("dir", "forward")
  if (direction == "none" || text("arrowhead", "normal") == "none") refuse(between, " has no direction")
  if (!direction %in% c("forward", "back", "both")) refuse(between, " has the direction ", direction, ", which isn't known")
  if (direction == "both" || says_yes(text("bidirected", "no"))) return("both")
  if (identical(as.character(beside$description), "U")) "hidden" else direction
}

# The tokens of a text that the form tells, each with its place; a text that isn't wholly of them is refused.
tokens_of <- function(text, form, kind) {
  found <- gregexpr(form, text, perl = TRUE)[[1]]
  ends <- found + attr(found, "match.length")
  gap <- which(c(1, ends) != c(if (found[1] > 0) found, nchar(text) + 1))
  if (nchar(text) && (found[1] < 0 || length(gap))) {
    start <- if (found[1] < 0) 1 else c(1, ends)[gap[1]]
    refuse("the text is no ", kind, " from here on: ", substr(text, start, start + 19))
  }
  if (nchar(text)) substring(text, found, ends - 1) else character()
}

gml_form <- '\\s+|#[^\\n]*|"[^"]*"|[-+]?(?:[0-9]+\\.?[0-9]*|\\.[0-9]+)(?:[eE][-+]?[0-9]+)?|[A-Za-z_][A-Za-z0-9_]*|[\\[\\]]'

read_gml <- function(text, ...) {
  tokens <- tokens_of(text, gml_form, "GML")
  whole <- gml_list(tokens[!grepl("^(\\s|#)", tokens)])
  graphs <- whole[names(whole) == "graph" & vapply(whole, is.list, NA)]
  if (length(graphs) != 1) refuse("the text has no graph, or several; GML has one")
  graph <- graphs[[1]]
  if (is.null(graph$directed) || !says_yes(graph$directed)) refuse("the graph isn't directed")
  nodes <- graph[names(graph) == "node"]
  edges <- graph[names(graph) == "edge"]
  first <- function(node, keys) as.character(unlist(node[keys[keys %in% names(node)][1]], use.names = FALSE))
  ids <- vapply(nodes, first, "", "id", USE.NAMES = FALSE)
  names <- vapply(nodes, first, "", c("label", "name", "id"), USE.NAMES = FALSE)
  if (anyDuplicated(ids)) refuse("two vertices have the same number: ", ids[anyDuplicated(ids)])
  ends <- lapply(c("source", "target"), function(side) vapply(edges, first, "", side, USE.NAMES = FALSE))
  lacking <- setdiff(unlist(ends), ids)
  if (length(lacking)) refuse("an edge is of the vertex ", lacking[1], ", which isn't there")
  form_text(names, unname(nodes), names[match(ends[[1]], ids)], names[match(ends[[2]], ids)], unname(edges), ...)
}

# Keys with their values: a list whose names may be there several times.
gml_list <- function(tokens) {
  at <- 1
  read <- function(is_inner) {
    found <- list()
    while (at <= length(tokens) && tokens[at] != "]") {
      key <- tokens[at]
      value <- if (at < length(tokens)) tokens[at + 1] else "]"
      if (!grepl("^[A-Za-z_]", key) || grepl("^([A-Za-z_]|\\])", value)) refuse("the text is no GML: at ", key, " a key with its value is expected")
      at <<- at + 2
      found <- c(found, stats::setNames(list(if (value == "[") read(TRUE) else gml_value(value)), key))
    }
    if (is_inner != (at <= length(tokens))) refuse("the text is no GML: a list isn't closed, or closed twice")
    at <<- at + is_inner
    found
  }
  read(FALSE)
}

# A number as it is written, or a text in whose entities signs are written.
gml_value <- function(value) {
  if (!startsWith(value, "\"")) return(value)
  text <- substr(value, 2, nchar(value) - 1)
  for (entity in unique(all_of("&#[0-9]+;|&#[xX][0-9a-fA-F]+;", text))) {
    number <- if (grepl("[xX]", entity)) strtoi(sub("&#[xX](.*);", "\\1", entity), 16L) else strtoi(sub("&#(.*);", "\\1", entity), 10L)
    text <- gsub(entity, intToUtf8(number), text, fixed = TRUE)
  }
  signs <- c("&quot;" = "\"", "&lt;" = "<", "&gt;" = ">", "&apos;" = "'", "&amp;" = "&")
  for (entity in names(signs)) text <- gsub(entity, signs[[entity]], text, fixed = TRUE)
  text
}

dot_form <- paste0(
  '(?s)\\s+|//[^\\n]*|/\\*.*?\\*/|#[^\\n]*|->|--|[\\[\\]{};,=:+]|"(?:[^"\\\\]|\\\\.)*"|(<(?:[^<>]++|(?1))*>)|',
  "[^\\x01-\\x40\\x5B-\\x5E\\x60\\x7B-\\x7F][^\\x01-\\x2F\\x3A-\\x40\\x5B-\\x5E\\x60\\x7B-\\x7F]*|-?(?:\\.[0-9]+|[0-9]+(?:\\.[0-9]*)?)")

read_dot <- function(text, ...) {
  tokens <- tokens_of(text, dot_form, "DOT")
  dot <- new_dot(tokens[!grepl("^(\\s|//|/\\*|#)", tokens)])
  dot_pass(dot, "strict")
  if (dot_pass(dot, "graph")) refuse("the graph isn't directed: a digraph is needed")
  dot_take(dot, "digraph")
  if (is_dot_text(dot)) dot$at <- dot$at + 1
  dot_block(dot, list(node = list(), edge = list(), graph = list()))
  if (dot$at <= length(dot$tokens)) dot_stop(dot)
  own <- dot$vertices
  names <- vapply(names(own), function(name) if (is.null(own[[name]]$name)) name else own[[name]]$name, "")
  end <- function(side) unname(names[vapply(dot$edges, `[[`, "", side)])
  form_text(unname(names), unname(own), end("from"), end("to"), lapply(dot$edges, `[[`, "beside"), ...)
}

# The tokens of a DOT text and the place of the next one, with the vertices and edges that were read.
new_dot <- function(tokens) list2env(list(tokens = tokens, at = 1, vertices = list(), edges = list()), parent = emptyenv())

dot_next <- function(dot, ahead = 0) if (dot$at + ahead <= length(dot$tokens)) dot$tokens[dot$at + ahead] else ""

dot_pass <- function(dot, token) {
  stands <- tolower(dot_next(dot)) == token
  if (stands) dot$at <- dot$at + 1
  stands
}

dot_take <- function(dot, token) if (!dot_pass(dot, token)) dot_stop(dot)

dot_stop <- function(dot) {
  rest <- dot$tokens[seq_along(dot$tokens) >= dot$at]
  refuse(if (length(rest)) paste("the text is no DOT at", paste(utils::head(rest, 4), collapse = " ")) else "the text is no DOT: it ends too early")
}

is_dot_text <- function(dot) nzchar(dot_next(dot)) && !grepl("^(->|--|[][{};,=:+])", dot_next(dot))

# A name or a value; texts between quotes may be joined by +.
dot_text <- function(dot) {
  if (!is_dot_text(dot)) dot_stop(dot)
  text <- dot_next(dot)
  dot$at <- dot$at + 1
  if (startsWith(text, "\"")) text <- gsub("\\\"", "\"", gsub("\\\n", "", substr(text, 2, nchar(text) - 1), fixed = TRUE), fixed = TRUE)
  if (dot_pass(dot, "+")) paste0(text, dot_text(dot)) else text
}

# The vertices of what stands between braces. Defaults that are set in it end with it.
dot_block <- function(dot, defaults) {
  members <- character()
  dot_take(dot, "{")
  while (!dot_pass(dot, "}")) {
    kind <- tolower(dot_next(dot))
    if (kind %in% names(defaults) && dot_next(dot, 1) == "[") {
      dot$at <- dot$at + 1
      defaults[[kind]] <- utils::modifyList(defaults[[kind]], dot_attributes(dot))
    } else if (dot_next(dot, 1) == "=") {
      dot$at <- dot$at + 2
      dot_text(dot)
    } else {
      members <- c(members, dot_chain(dot, defaults))
    }
    while (dot_pass(dot, ";") || dot_pass(dot, ",")) NULL
  }
  members
}

# A vertex, or a chain of edges between vertices and groups.
dot_chain <- function(dot, defaults) {
  ends <- list(dot_end(dot, defaults))
  while (dot_pass(dot, "->")) ends <- c(ends, list(dot_end(dot, defaults)))
  if (dot_next(dot) == "--") refuse("an edge has no direction: in a digraph edges are written ->")
  beside <- dot_attributes(dot)
  if (length(ends) == 1) for (name in ends[[1]]) dot$vertices[[name]] <- utils::modifyList(dot$vertices[[name]], beside)
  beside <- utils::modifyList(defaults$edge, beside)
  for (k in seq_along(ends)[-1]) for (from in ends[[k - 1]]) for (to in ends[[k]])
    dot$edges <- c(dot$edges, list(list(from = from, to = to, beside = beside)))
  unlist(ends)
}

dot_end <- function(dot, defaults) {
  if (dot_pass(dot, "subgraph") && is_dot_text(dot)) dot$at <- dot$at + 1
  if (dot_next(dot) == "{") return(dot_block(dot, defaults))
  if (startsWith(dot_next(dot), "<")) refuse("a vertex is named by markup, which isn't read as a name")
  name <- dot_text(dot)
  if (!nzchar(name)) refuse("a vertex has an empty name")
  while (dot_pass(dot, ":")) dot_text(dot)
  if (!name %in% names(dot$vertices)) dot$vertices[[name]] <- defaults$node
  name
}

dot_attributes <- function(dot) {
  found <- list()
  while (dot_pass(dot, "[")) {
    while (!dot_pass(dot, "]")) {
      key <- dot_text(dot)
      found[[key]] <- if (dot_pass(dot, "=")) dot_text(dot) else "true"
      while (dot_pass(dot, ",") || dot_pass(dot, ";")) NULL
    }
  }
  found
}
