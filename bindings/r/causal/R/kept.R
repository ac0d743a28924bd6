# A diagram that is asked many questions: the library reads its text once, and keeps it.

# The last diagram that was asked. What is kept of it stays here, out of the reach of whoever has the diagram.
last <- new.env(parent = emptyenv())

is_separated <- function(diagram, x, y, given = character()) {
  diagram <- as_causal_diagram(diagram)
  kept <- keep(diagram)
  sets <- list(places(x), places(y), places(given))
  # where that can't be asked, `separated` says why
  if (is.null(kept) || anyNA(unlist(sets))) return(separated(diagram, x, y, given)$holds)
  status <- .Call(call_separated, kept, sets[[1]], sets[[2]], sets[[3]])
  if (status > 1L) separated(diagram, x, y, given)$holds else status == 0L
}

is_identifiable <- function(diagram, x, y) {
  diagram <- as_causal_diagram(diagram)
  kept <- keep(diagram)
  sets <- list(places(x), places(y))
  # where that can't be asked, `identify_effect` says why
  if (is.null(kept) || anyNA(unlist(sets))) return(identify_effect(diagram, x, y)$identifiable)
  status <- .Call(call_identifiable, kept, sets[[1]], sets[[2]])
  if (status > 1L) identify_effect(diagram, x, y)$identifiable else status == 0L
}

is_admissible <- function(diagram, set, x, y) {
  diagram <- as_causal_diagram(diagram)
  kept <- keep(diagram)
  sets <- list(places(x), places(y), places(set))
  # where that can't be asked, `adjusts` says why
  if (is.null(kept) || anyNA(unlist(sets))) return(adjusts(diagram, set, x, y)$holds)
  status <- .Call(call_admissible, kept, sets[[1]], sets[[2]], sets[[3]])
  if (status > 1L) adjusts(diagram, set, x, y)$holds else status == 0L
}

# What the library keeps of the diagram, which it reads unless it is the last one; NULL where its text is refused.
keep <- function(diagram) {
  if (!identical(last$diagram$text, diagram$text)) {
    kept <- .Call(call_keep, as_bytes(diagram$text))
    if (!is.list(kept)) return(NULL)
    # at one go, so that an interrupt can't leave the one's text with the other's answers
    last$diagram <- list(text = diagram$text, names = observed_names(diagram), kept = kept)
  }
  last$diagram$kept
}

# The observed vertices in order.
observed_names <- function(diagram) diagram$vertices$name[diagram$vertices$role != "latent"]

# The places of names among the observed vertices; NA where one has none or is named twice.
places <- function(names) {
  found <- match(enc2utf8(as.character(names)), last$diagram$names)
  if (anyDuplicated(found)) NA_integer_ else found
}
