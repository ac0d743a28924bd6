# How far a hidden common cause could go, and whether sets that should agree do.

# The least strength, as a risk ratio with both exposure and outcome, that a hidden common cause needs to make the ratio 1 (VanderWeele
# and Ding, 2017): of a ratio, and of the end of its interval that is nearer to 1.
e_value <- function(ratio, conf_low = NA, conf_high = NA) {
  if (inherits(ratio, c("causal_contrast", "causal_estimate"))) {
    here <- as.data.frame(ratio)[ratio[["measure"]] == "ratio", ]
    found <- e_value(here$estimate, here$conf_low, here$conf_high)
    return(frame_of(c(as.list(here)[seq_len(match("measure", names(here)) - 1)], as.list(found))))
  }
  if (!is.numeric(ratio) || any(ratio <= 0, na.rm = TRUE)) refuse("`ratio` has risk ratios, which are above 0, or is what `contrast` or `estimate` gives")
  of <- function(ratio) {
    above <- ifelse(ratio < 1, 1 / ratio, ratio)
    above + sqrt(above * (above - 1))
  }
  conf_low <- rep_len(as.numeric(conf_low), length(ratio))
  conf_high <- rep_len(as.numeric(conf_high), length(ratio))
  near <- ifelse(ratio < 1, conf_high, conf_low)
  crosses <- (ratio < 1) != (near < 1)
  frame_of(list(ratio = ratio, e_value = of(ratio), e_value_interval = ifelse(crosses, 1, of(near))))
}

# The crude comparison beside that by the formula and by each listed minimal set: where the diagram is right, all but the crude one estimate
# one number. Where there is no value over the counts an estimate by models stands, and says so.
compare <- function(diagram, data, x = NULL, y = NULL, treated = NULL, control = NULL, outcome = NULL, most = 10, resamples = 1000,
                    model = "logistic", bounds = TRUE, ...) {
  diagram <- as_causal_diagram(diagram)
  check_exposures(diagram, x)
  check_flag("bounds", bounds)
  listed <- adjustment_sets(diagram, x, y, most = most)
  exposures <- if (is.null(x)) has_role(diagram, "exposure") else x
  outcomes <- if (is.null(y)) has_role(diagram, "outcome") else y
  plain <- as_causal_diagram(expand.grid(from = exposures, to = outcomes, stringsAsFactors = FALSE))
  way <- function(diagram, label, set = NULL) {
    asked <- list(diagram, data, exposures, outcomes, treated, control, outcome = outcome, set = set, ...)
    rows_of_way(way_to(asked, resamples, model), label)
  }
  rows <- c(list(way(plain, "crude", character())), list(way(diagram, "formula")),
            lapply(listed$sets, function(set) way(diagram, paste0("{", paste(set, collapse = ","), "}"), set)))
  columns <- unique(unlist(lapply(rows, names)))
  columns <- c(setdiff(columns, "note"), "note")
  rows <- lapply(rows, function(row) { for (name in setdiff(columns, names(row))) row[[name]] <- rep(NA, nrow(row)); row[columns] })
  structure(do.call(rbind, rows), class = c("causal_comparison", "causal_rows", "data.frame"), more = listed$more,
            bounds = if (bounds) difference_bounds(diagram, data, exposures, outcomes, treated, control, outcome, ...))
}

# A contrast, or where the counts have no value an estimate, or what is said of neither.
way_to <- function(asked, resamples, model) {
  found <- tryCatch(do.call(contrast, c(asked, list(resamples = resamples))), causal_refusal = identity)
  if (!inherits(found, c("causal_evaluation_fault", "causal_counts_fault")) || inherits(found, "causal_counts_fault") && found$number != 5) return(found)
  shared <- setdiff(names(asked), c("interval", "exact", "back_door", "zero"))
  asked <- asked[is.null(names(asked)) | !nzchar(names(asked)) | names(asked) %in% shared]
  by_model <- tryCatch(do.call(estimate, c(asked, list(model = model, resamples = if (resamples == 0) 0))), causal_refusal = identity)
  if (inherits(by_model, "condition")) found else by_model
}

rows_of_way <- function(found, label) {
  if (inherits(found, "condition"))
    return(frame_of(list(set = label, by = "no value", measure = "difference", estimate = NA_real_, conf_low = NA_real_, conf_high = NA_real_, note = conditionMessage(found))))
  frame <- as.data.frame(found)
  here <- frame[frame$measure == "difference", setdiff(names(frame), "std_error")]
  ratio <- frame[frame$measure == "ratio", ]
  has_risks <- "risk_treated" %in% frame$measure
  values <- if (has_risks) ifelse(is.na(ratio$estimate) | ratio$estimate <= 0, NA, ratio$estimate) else rep(NA_real_, nrow(here))
  frame_of(c(list(set = rep(label, nrow(here)), by = rep(if (inherits(found, "causal_estimate")) "models" else "counts", nrow(here))), as.list(here),
             list(e_value = e_value(values)$e_value)))
}

# The bounds of the library that take nothing but counts, which stand beside a comparison: they are no intervals of a sample. NULL where it
# has none.
difference_bounds <- function(diagram, data, x, y, treated, control, outcome, ...) {
  shared <- list(...)[intersect(...names(), c("count", "missing"))]
  if (is.null(treated) && is.null(control) && length(x) == 1) {
    # those of a contrast without arms
    levels <- levels_of(if (is.data.frame(data)) data[[x]] else unlist(dimnames(data)[x], use.names = FALSE))
    if (length(levels) == 2) { treated <- levels[2]; control <- levels[1] }
  }
  if (is.null(treated)) return(NULL)
  found <- tryCatch(do.call(bounds_effect, c(list(diagram, data, x, y, treated = treated, control = control, outcome = outcome), shared)), causal_refusal = function(it) NULL)
  if (inherits(found, "causal_bounds")) as.data.frame(found)[found$measure == "difference", ]
}

# The pairs of sets whose intervals have nothing in common.
apart_sets <- function(x) {
  sets <- as.data.frame(x)[x[["set"]] != "crude" & !is.na(x[["conf_low"]]), ]
  levels <- setdiff(names(sets), c("set", "by", "treated", "control", "measure", "estimate", "conf_low", "conf_high", "e_value", "note"))
  cell <- do.call(paste, c(lapply(levels, function(name) as.character(sets[[name]])), list(rep("", nrow(sets)))))
  pairs <- if (nrow(sets) > 1) utils::combn(nrow(sets), 2) else matrix(0, 2, 0)
  apart <- apply(pairs, 2, function(pair) {
    cell[pair[1]] == cell[pair[2]] && (sets$conf_low[pair[1]] > sets$conf_high[pair[2]] || sets$conf_low[pair[2]] > sets$conf_high[pair[1]])
  })
  pairs <- pairs[, as.logical(apart), drop = FALSE]
  unique(paste(sets$set[pairs[1, ]], "and", sets$set[pairs[2, ]], recycle0 = TRUE))
}

print.causal_comparison <- function(x, digits = 4, ...) {
  if (!all(c("set", "conf_low", "conf_high") %in% names(x))) return(print.data.frame(x, ...))
  print.data.frame(as.data.frame(x)[setdiff(names(x), "note")], digits = digits, ...)
  bounds <- attr(x, "bounds")
  cells <- if (NROW(bounds)) cell_texts(bounds, seq_len(match("treated", names(bounds)) - 1))
  cat(paste0("natural bounds of the risk difference", if (length(cells) > 1) paste0(" of ", cells) else "", ", whatever is hidden: at least ", format(bounds$at_least, digits = digits),
             ", at most ", format(bounds$at_most, digits = digits), "\n", recycle0 = TRUE), sep = "")
  if (any(x[["by"]] == "models")) cat("by models: computed, and nothing but the formula or the set is proved\n")
  if (isTRUE(attr(x, "more"))) cat("there are more sets\n")
  apart <- apart_sets(x)
  cat(if (length(apart)) paste0("these sets have intervals without a common value, so that the diagram may be wrong: ", paste(apart, collapse = "; "))
      else "the intervals of the sets have common values, as they should where the diagram is right", "\n", sep = "")
  writeLines(row_notes(x))
  invisible(x)
}

# Crude, by the formula and by each set: a forest plot.
plot.causal_comparison <- function(x, ...) {
  shown <- as.data.frame(x)
  drawn_forest(shown, paste0(shown$set, ifelse(shown$by == "models", " (models)", "")), "difference", 0, ...)
}

as.data.frame.causal_comparison <- function(x, ...) as.data.frame.causal_implications(x)
