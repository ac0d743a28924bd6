# What a diagram says of data. Each pair, its set and its difference are the library's; a difference as a number of R is rounded.

implications <- function(diagram, data = NULL, count = NULL, missing = c("error", "drop", "level")) {
  diagram <- as_causal_diagram(diagram)
  missing <- one_of(missing)
  table <- if (!is.null(data)) count_table(diagram, character(), data, count, missing, "implications")
  told <- if (is.null(table)) ask("implications", diagram)
          else ask_table(diagram, c("--count", count_name(table)), table, "implications")
  implications_frame(read_implications(object_of(told)), table)
}

implications_frame <- function(read, table) {
  columns <- list(a = read$a, b = read$b, given = text_list(read$given))
  if (!is.null(table)) {
    cells <- text_list(lapply(read$cells, levels_at, table = table))
    columns <- c(columns, list(difference = as.numeric(read$difference), exact = read$difference, at = cells))
  }
  structure(frame_of(columns), class = c("causal_implications", "data.frame"), dropped = table$dropped)
}

print.causal_implications <- function(x, ...) {
  if (!nrow(x)) cat("none\n")
  print_with_notes(x, x, ...)
}

# A plain data frame: sets and cells are text alone, and what the answer rests on isn't in it.
as.data.frame.causal_implications <- function(x, ...) {
  frame_of(lapply(stats::setNames(names(x), names(x)), function(name) {
    if (inherits(x[[name]], "causal_text_list")) as.character(x[[name]]) else x[[name]]
  }))
}

as.data.frame.causal_contrast <- as.data.frame.causal_implications

as.data.frame.causal_effects <- as.data.frame.causal_implications

as.data.frame.causal_means <- as.data.frame.causal_implications

as.data.frame.causal_spread <- as.data.frame.causal_implications

as.data.frame.causal_tests <- as.data.frame.causal_implications

# A column of sets or of cells: texts, by which it is printed, compared and written to files, each with its members, which `[[` and
# `as.list` give, and so `lapply`.
text_list <- function(members) structure(vapply(members, cell_or_set, ""), members = members, class = "causal_text_list")

as.character.causal_text_list <- function(x, ...) {
  attributes(x) <- NULL
  x
}

as.list.causal_text_list <- function(x, ...) attr(x, "members")

format.causal_text_list <- function(x, ...) format(as.character(x), ...)

print.causal_text_list <- function(x, ...) {
  print(as.character(x), quote = FALSE, ...)
  invisible(x)
}

`[.causal_text_list` <- function(x, i) {
  structure(as.character(x)[i], members = attr(x, "members")[i], class = "causal_text_list")
}

`[[.causal_text_list` <- function(x, i) attr(x, "members")[[i]]

# What is put into such a column is text, and so is the column from then on.
`[<-.causal_text_list` <- function(x, i, value) {
  x <- as.character(x)
  x[i] <- as.character(value)
  x
}

# A set as {A,B}, and the levels of a cell as A=1,B=2.
cell_or_set <- function(it) {
  if (is.null(names(it))) return(paste0("{", paste(it, collapse = ","), "}"))
  paste0(names(it), "=", vapply(it, as.character, ""), collapse = ",")
}
