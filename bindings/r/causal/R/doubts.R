# Warnings of what in a text may be a typing error, though the library reads it: it may have cost an edge.

role_words <- c(exposure = "exposure", outcome = "outcome", adjusted = "adjusted vertex", latent = "latent vertex")

white_form <- "[ \\t\\r\\n]*"

# The statements `name = value` of a text that is read as a diagram, with what stands before each. Attributes in brackets are
# none.
dropped_in <- function(text) {
  none <- frame_of(list(name = character(), text = character(), before = character()))
  if (!grepl("=", text, fixed = TRUE)) return(none)
  name <- paste0("(?:\"[^\"\\r\\n]*\"|", bare_form, ")")
  statement <- paste0(name, white_form, "=", white_form, "(?:\"[^\"\\r\\n]*\"|[^ \\t\\r\\n,\\]};\"]+)")
  form <- paste0("\\[(?:\"[^\"\\r\\n]*\"|[^\\]\"])*\\]|", statement, "|\"[^\"\\r\\n]*\"")
  found <- gregexpr(form, text, perl = TRUE)[[1]]
  if (found[1] < 0) return(none)
  texts <- substring(text, found, found + attr(found, "match.length") - 1)
  is_statement <- grepl(paste0("^", statement, "$"), texts, perl = TRUE)
  if (!any(is_statement)) return(none)
  texts <- texts[is_statement]
  names <- vapply(texts, function(it) all_of(paste0("^", name), it), "", USE.NAMES = FALSE)
  frame_of(list(name = gsub("\"", "", names, fixed = TRUE), text = texts, before = substring(text, 1, found[is_statement] - 1)))
}

# Whether a name has neither a letter nor a digit.
is_of_signs <- function(names) !grepl("[\\p{L}\\p{N}]", names, perl = TRUE)

# A sentence for each doubt. `bb` is what DAGitty writes into each text.
doubts_of <- function(text, graph) {
  edges <- "an edge is written ->, <- or <->"
  dropped <- dropped_in(text)
  dropped <- dropped[dropped$name != "bb", , drop = FALSE]
  where <- vapply(strsplit(paste0(dropped$before, " ", recycle0 = TRUE), "\n", fixed = TRUE),
                  function(lines) paste0("at line ", length(lines), ", column ", nchar(lines[length(lines)])), "")
  has_edge <- graph$vertices$name %in% c(graph$edges$from, graph$edges$to)
  idle <- graph$vertices[nzchar(graph$vertices$role) & !has_edge, , drop = FALSE]
  lone <- setdiff(graph$vertices$name[is_of_signs(graph$vertices$name)], c(graph$edges$from, graph$edges$to))
  c(paste0("'", dropped$text, "' ", where, " says nothing of the diagram, and was dropped; ", edges, recycle0 = TRUE),
    paste0("the vertex ", printed(lone), " has no edge, and its name is made of signs; ", edges, recycle0 = TRUE),
    paste0("the ", role_words[idle$role], " ", printed(idle$name), " has no edge; is its name written as in the edges?", recycle0 = TRUE))
}

warn_of_doubts <- function(text, graph) {
  for (told in doubts_of(text, graph)) doubt(told)
}
