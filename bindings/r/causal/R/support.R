# Where records lack: the strata of a set to adjust for, and the arms in each.

support <- function(diagram, data, x = NULL, y = NULL, set = NULL, count = NULL, missing = c("error", "drop", "level")) {
  diagram <- as_causal_diagram(diagram)
  check_exposures(diagram, x)
  if (is.null(set)) {
    listed <- adjustment_sets(diagram, x, y, most = 1)$sets
    if (!length(listed)) refuse("no set can be adjusted for here: `set` names one whose strata are to be told", kind = "not_admissible")
    set <- listed[[1]]
  } else if (!adjusts(diagram, set, x, y)$holds) {
    doubt("{", paste(set, collapse = ","), "} is no set that can be adjusted for; its strata are told all the same")
  }
  exposures <- if (is.null(x)) has_role(diagram, "exposure") else x
  used <- c(set, exposures)
  table <- count_table(diagram, character(), data, count, one_of(missing), of = used)
  support_frame(table, set, exposures)
}

# A row for each stratum with a record and each arm.
support_frame <- function(table, set, exposures) {
  codes <- table$codes
  stratum <- do.call(paste, c(list(rep("", nrow(codes))), lapply(set, function(name) codes[, name]), list(sep = ",")))
  arm <- do.call(paste, c(lapply(exposures, function(name) codes[, name]), list(sep = ",")))
  first <- order_of_codes(codes[!duplicated(stratum), set, drop = FALSE], table)
  strata <- which(!duplicated(stratum))[first]
  arms <- which(!duplicated(arm))[order_of_codes(codes[!duplicated(arm), exposures, drop = FALSE], table)]
  pairs <- expand.grid(arm = arms, stratum = strata)
  records <- mapply(function(a, s) sum(table$counts[arm == arm[a] & stratum == stratum[s]]), pairs$arm, pairs$stratum)
  columns <- c(lapply(stats::setNames(set, set), function(name) level_of(table, name, codes[pairs$stratum, name])),
               lapply(stats::setNames(exposures, exposures), function(name) level_of(table, name, codes[pairs$arm, name])), list(records = as.numeric(records)))
  structure(frame_of(columns), class = c("causal_support", "data.frame"), set = set, exposures = exposures, dropped = table$dropped,
            stratum = match(pairs$stratum, strata))
}

order_of_codes <- function(codes, table) {
  if (!ncol(codes)) return(seq_len(nrow(codes)))
  do.call(order, lapply(colnames(codes), function(name) order(level_order(table$levels[[name]]))[codes[, name]]))
}

# The strata that lack an arm, how many records they have, and what that is of all.
lacking_support <- function(x) {
  stratum <- attr(x, "stratum")
  records <- tapply(x$records, stratum, sum)
  lacks <- tapply(x$records == 0, stratum, any)
  list(strata = length(records), lacking = sum(lacks), records = sum(records), without = sum(records[lacks]))
}

print.causal_support <- function(x, ...) {
  if (!identical(length(attr(x, "stratum")), nrow(x))) return(print.data.frame(x, ...))
  found <- lacking_support(x)
  cat("strata of {", paste(attr(x, "set"), collapse = ", "), "}: ", found$strata, ", of which ", found$lacking, " lack an arm; these have ", found$without,
      " of ", counted(found$records, "record"), "\n", sep = "")
  writeLines(head_notes(x))
  print.data.frame(x, ...)
  invisible(x)
}

as.data.frame.causal_support <- function(x, ...) frame_of(as.list(x))
