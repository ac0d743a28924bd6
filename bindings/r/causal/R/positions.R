# Where DAGitty drew the vertices: the attribute `pos` of a vertex in the text. DAGitty's heights grow downwards.

# A matrix with a row for each vertex that has a place; NULL unless all of them have one.
positions_of <- function(text, names) {
  if (!grepl("pos", text, fixed = TRUE)) return(NULL)
  name <- paste0("\"[^\"\\r\\n]*\"|", bare_form)
  form <- paste0("(->|<->|<-|--|@)?", white_form, "(", name, ")", white_form, "\\[((?:\"[^\"]*\"|[^\\]\"])*)\\]")
  found <- gregexpr(form, text, perl = TRUE)[[1]]
  if (found[1] < 0) return(NULL)
  part <- function(k) substring(text, attr(found, "capture.start")[, k], attr(found, "capture.start")[, k] + attr(found, "capture.length")[, k] - 1)
  own <- !nzchar(part(1))
  vertices <- gsub("\"", "", part(2)[own], fixed = TRUE)
  inner <- regmatches(part(3)[own], regexec("(?:^|[ \\t\\r\\n,])pos[ \\t\\r\\n]*=[ \\t\\r\\n]*\"([^\"]*)\"", part(3)[own]))
  places <- lapply(inner, function(it) suppressWarnings(as.numeric(strsplit(if (length(it) > 1) it[2] else "", ",", fixed = TRUE)[[1]])))
  has <- vapply(places, function(place) length(place) == 2 && all(is.finite(place)), NA)
  at <- match(names, vertices[has])
  if (!length(names) || anyNA(at)) return(NULL)
  found <- do.call(rbind, places[has][at])
  found[, 2] <- -found[, 2]
  dimnames(found) <- list(names, c("x", "y"))
  if (anyDuplicated(found)) NULL else found
}

# Where the vertices stand: at the places that are given, those of the text, or in layers.
places_of <- function(diagram, layout = NULL) {
  if (is.matrix(layout) || is.data.frame(layout)) return(given_places(diagram, layout))
  if (!is.null(layout) && !identical(layout, "layers")) refuse("`layout` is a matrix of places, or \"layers\" for places that are computed")
  if (is.null(layout) && !is.null(diagram$positions)) return(given_places(diagram, diagram$positions))
  layered_places(diagram)
}
