# Answers in documents of knitr: a formula in LaTeX, tables as tables. The package knitr isn't needed; where it is loaded, its generic
# gets these methods (see registered.R).

# Text that knitr puts into the document as it is.
as_it_is <- function(lines) structure(paste(c("", lines, ""), collapse = "\n"), class = "knit_asis", knit_cacheable = NA)

# What knitr puts into a document: a displayed formula, or one within a sentence.
knit_formula <- function(x, ..., inline = FALSE) {
  if (inline) return(structure(latex_inline(x), class = "knit_asis", knit_cacheable = NA))
  free <- if (length(x$free)) paste0("Free: ", paste(x$free, collapse = ", "), ".")
  as_it_is(c("$$", latex_equations(x), "$$", "", free))
}

knit_text <- function(x, ..., inline = FALSE) {
  if (inline) return(paste(utils::capture.output(print(x)), collapse = " "))
  as_it_is(c("```", utils::capture.output(print(x)), "```"))
}

# A table of markdown, with what it rests on below it.
knit_table <- function(x, ...) {
  columns <- as.data.frame(x)
  columns[] <- lapply(columns, function(column) if (is.double(column)) formatC(column, digits = 4, format = "g") else as.character(column))
  cells <- lapply(columns, gsub, pattern = "|", replacement = "\\|", fixed = TRUE)
  rows <- if (nrow(columns)) paste0("| ", do.call(paste, c(unname(cells), list(sep = " | "))), " |")
  head <- c(paste0("| ", paste(names(columns), collapse = " | "), " |"), paste0("|", strrep("---|", ncol(columns))))
  notes <- if (inherits(x, "causal_estimate")) c(estimate_head(x), estimate_foot(x)) else c(head_notes(x), foot_notes(x))
  as_it_is(c(head, rows, "", if (length(notes)) paste0(notes, "\n")))
}

knit_methods <- c(
  list(causal_formula = knit_formula),
  sapply(c("causal_answer", "causal_diagram", "causal_path"), function(class) knit_text, simplify = FALSE),
  sapply(c("causal_effects", "causal_contrast", "causal_means", "causal_spread", "causal_implications", "causal_tests",
           "causal_estimate", "causal_mediation", "causal_support", "causal_comparison", "causal_paths", "causal_bounds"),
         function(class) knit_table, simplify = FALSE)
)
