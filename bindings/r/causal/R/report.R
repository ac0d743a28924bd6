# One document of an analysis: the diagram, what can be computed and by which formula, where records lack, values with their intervals, and
# what speaks for and against the diagram.

report <- function(diagram, data, x = NULL, y = NULL, treated = NULL, control = NULL, outcome = NULL, file = NULL,
                   format = c("html", "markdown", "latex"), title = "Analysis of an effect", set = NULL, count = NULL, level = 0.95, resamples = 1000, seed = 0,
                   missing = c("error", "drop", "level"), permutations = 1000, progress = NULL) {
  if (!is.null(file) && identical(format, c("html", "markdown", "latex"))) format <- format_of_file(file)
  format <- one_of(format)
  diagram <- as_causal_diagram(diagram)
  check_exposures(diagram, x)
  missing <- one_of(missing)
  parts <- report_parts(diagram, data, x, y, treated, control, outcome, set, count, level, resamples, seed, missing, permutations, progress)
  lines <- switch(format, html = report_html(title, parts), markdown = report_markdown(title, parts), latex = report_latex(title, parts))
  if (is.null(file)) return(structure(list(lines = lines, parts = parts, format = format), class = "causal_report"))
  writeLines(enc2utf8(lines), file, useBytes = TRUE)
  invisible(structure(list(lines = lines, parts = parts, format = format), class = "causal_report"))
}

format_of_file <- function(file) {
  end <- tolower(sub("^.*[.]", "", basename(file)))
  switch(end, html = , htm = "html", md = , rmd = "markdown", tex = "latex", refuse("the end of the file's name tells no format; `format` names one"))
}

print.causal_report <- function(x, ...) {
  writeLines(x$lines)
  invisible(x)
}

most_parts <- 12

# Each part has a head and what stands below it: a text, lines of the program, a formula or a table. A part that has no answer says why.
report_parts <- function(diagram, data, x, y, treated, control, outcome, set, count, level, resamples, seed, missing, permutations, progress) {
  tell <- progress_of(progress, most_parts)
  done <- 0
  quietly <- function(call) withCallingHandlers(call, causal_doubt = function(it) invokeRestart("muffleWarning"))
  part <- function(head, call) {
    body <- tryCatch(quietly(call), causal_refusal = function(it) list(paste("No answer:", conditionMessage(it))))
    tell(done <<- done + 1, most_parts)
    list(head = head, body = body)
  }
  effect <- identify_effect(diagram, x, y, short = TRUE)
  bounds <- function() bounds_effect(diagram, data, x, y, count = count, missing = missing, treated = treated, control = control, outcome = outcome)
  told_bounds <- paste("What the effect is at least and at most, whatever the hidden causes are: the bounds are proved to hold of the counts,",
                       "and say nothing of the sample's error.")
  if (!effect$identifiable) {
    return(list(part("Diagram", list(verbatim(format(diagram)), drawing_of(diagram))),
                part("The effect", list("No formula over observations exists; the hedge shows why.", verbatim(lines_of(effect$text)))),
                part("Bounds", list(bounds(), told_bounds))))
  }
  exposures <- if (is.null(x)) has_role(diagram, "exposure") else x
  outcomes <- if (is.null(y)) has_role(diagram, "outcome") else y
  compare <- function(diagram, set) contrast(diagram, data, exposures, outcomes, treated, control, outcome = outcome, count = count, level = level,
                                             resamples = resamples, seed = seed, missing = missing, set = set)
  # (computed once, where it is first asked for)
  kept <- NULL
  adjusted <- function() if (is.null(kept)) kept <<- compare(diagram, set) else kept
  crude <- as_causal_diagram(expand.grid(from = exposures, to = outcomes, stringsAsFactors = FALSE))
  list(
    part("Diagram", list(verbatim(format(diagram)), drawing_of(diagram))),
    part("The effect", list("The effect can be computed from observations. That is proved, and so is the formula.", effect)),
    part("Records", list(records_told(diagram, data, exposures, outcomes, set, count, missing))),
    part("Sets to adjust for", list(verbatim(lines_of(adjustment_sets(diagram, x, y)$text)))),
    part("Support", support_part(diagram, data, x, y, set, count, missing)),
    part("Crude comparison", list(compare(crude, character()))),
    part("Effect", list(adjusted(), paste("Each value of a probability is proved to be that of the formula over the counts,",
                                          "or where it has none without 'zero', its value by that rule.",
                                          "Differences, ratios and intervals are computed."))),
    part("By models", models_part(diagram, data, x, y, treated, control, outcome, set, count, missing)),
    part("Bounds", list(bounds(), told_bounds)),
    part("Sensitivity", list(e_value(adjusted()), paste("An E-value is the least risk ratio that a hidden common cause would need with both",
                                                        "exposure and outcome."))),
    part("Tests of what the diagram implies",
         list(test_implications(diagram, data, count = count, missing = missing, permutations = permutations, seed = seed))),
    part("Derivation", list(verbatim(derivation_lines(effect)))))
}

# How many records are used, and how many were left out for which columns.
records_told <- function(diagram, data, x, y, set, count, missing) {
  asked <- asked_of(diagram, x, y, set, zero = TRUE, short = is.null(set))
  table <- count_table(asked$diagram, asked$words, data, count, missing, keeps = asked$y)
  number <- function(count) format(count, big.mark = ",", scientific = FALSE)
  paste0(number(sum(table$records)), " records are used. ", number(table$dropped), " were left out for missing values",
         if (table$dropped > 0) paste0(" (", paste0(names(table$lacking), ": ", number(table$lacking), collapse = ", "), ")"), ".")
}

# The estimate by models, where the set or the formula has one.
models_part <- function(diagram, data, x, y, treated, control, outcome, set, count, missing) {
  found <- estimate(diagram, data, x, y, treated, control, outcome = outcome, set = set, count = count, missing = missing)
  list(found, "An estimate is computed by the models that it names; nothing but the formula, or that the set may be adjusted for, is proved.")
}

# The drawing as SVG, where the machine can draw one: it stands in HTML alone.
drawing_of <- function(diagram) {
  if (!isTRUE(capabilities("cairo"))) return(character())
  file <- tempfile(fileext = ".svg")
  on.exit(unlink(file))
  drawn <- tryCatch({
    grDevices::svg(file, 7, 4)
    graphics::par(mar = rep(0.5, 4))
    plot(diagram)
    TRUE
  }, error = function(it) FALSE, finally = grDevices::dev.off())
  lines <- if (drawn) readLines(file, encoding = "UTF-8", warn = FALSE)
  structure(list(lines = lines[!grepl("^<[?]xml", lines)]), class = "causal_svg")
}

verbatim <- function(lines) structure(list(lines = lines), class = "causal_verbatim")

support_part <- function(diagram, data, x, y, set, count, missing) {
  found <- support(diagram, data, x, y, set, count, missing)
  told <- lacking_support(found)
  lacks <- attr(found, "stratum") %in% which(tapply(found$records == 0, attr(found, "stratum"), any))
  c(list(paste0("The set {", paste(attr(found, "set"), collapse = ", "), "} has ", told$strata, " strata, of which ", told$lacking,
                " lack an arm; these have ", told$without, " of ", told$records, " records. Left out for missing values: ", attr(found, "dropped"), " records.")),
    list(if (any(lacks) && nrow(found) > 40) as.data.frame(found)[lacks, ] else as.data.frame(found)))
}

# The certificate's steps in words, as the program prints them.
derivation_lines <- function(effect) {
  asked <- list(command = "steps", words = "certificate", inputs = list(certificate = as_bytes(effect$certificate)))
  lines_of(text_of(asked, effect$diagram))
}

report_table <- function(body) {
  columns <- as.data.frame(body)
  if ("note" %in% names(columns) && !any(nzchar(columns$note))) columns$note <- NULL
  lapply(columns, function(column) if (is.double(column)) trimws(formatC(column, digits = 4, format = "g")) else as.character(column))
}

report_notes <- function(body) {
  if (inherits(body, "causal_estimate")) return(c(estimate_head(body), estimate_foot(body)))
  if (inherits(body, c("causal_rows", "causal_tests", "causal_bounds"))) c(head_notes(body), foot_notes(body))
}

report_markdown <- function(title, parts) {
  one <- function(body) {
    if (inherits(body, "causal_svg") || !length(body)) return(character())
    if (inherits(body, "causal_verbatim")) return(c("```", body$lines, "```", ""))
    if (inherits(body, "causal_formula")) return(c("$$", latex_equations(body), "$$", ""))
    if (is.character(body)) return(c(body, ""))
    cells <- lapply(report_table(body), function(column) gsub("|", "\\|", replace(column, is.na(column), ""), fixed = TRUE))
    rows <- if (nrow(as.data.frame(body))) paste0("| ", do.call(paste, c(unname(cells), list(sep = " | "))), " |") else "| none |"
    c(paste0("| ", paste(names(cells), collapse = " | "), " |"), paste0("|", strrep("---|", length(cells))), rows, "", report_notes(body), "")
  }
  c(paste("#", title), "", unlist(lapply(parts, function(part) c(paste("##", part$head), "", unlist(lapply(part$body, one))))))
}

html_escaped <- function(text) gsub(">", "&gt;", gsub("<", "&lt;", gsub("&", "&amp;", text, fixed = TRUE), fixed = TRUE), fixed = TRUE)

# A document that needs no script and no file beside it: the formula stands as text.
report_html <- function(title, parts) {
  one <- function(body) {
    if (inherits(body, "causal_svg")) return(body$lines)
    if (!length(body)) return(character())
    if (inherits(body, "causal_verbatim")) return(c("<pre>", html_escaped(body$lines), "</pre>"))
    if (inherits(body, "causal_formula")) return(c("<pre>", html_escaped(lines_of(body$text)), "</pre>"))
    if (is.character(body)) return(paste0("<p>", html_escaped(body), "</p>"))
    cells <- lapply(report_table(body), function(column) html_escaped(replace(column, is.na(column), "")))
    row <- function(values, tag) paste0("<tr>", paste0("<", tag, ">", values, "</", tag, ">", collapse = ""), "</tr>")
    rows <- vapply(seq_len(nrow(as.data.frame(body))), function(k) row(vapply(cells, `[`, "", k), "td"), "")
    c("<table>", row(html_escaped(names(cells)), "th"), rows, "</table>", paste0("<p>", html_escaped(report_notes(body)), "</p>", recycle0 = TRUE))
  }
  style <- "body{font-family:sans-serif;max-width:60em;margin:2em auto}table{border-collapse:collapse}td,th{border:1px solid #ccc;padding:.2em .6em;text-align:left}"
  c("<!DOCTYPE html>", "<html lang=\"en\">", "<head>", "<meta charset=\"utf-8\">", paste0("<title>", html_escaped(title), "</title>"), paste0("<style>", style, "</style>"),
    "</head>", "<body>", paste0("<h1>", html_escaped(title), "</h1>"),
    unlist(lapply(parts, function(part) c(paste0("<h2>", html_escaped(part$head), "</h2>"), unlist(lapply(part$body, one))))), "</body>", "</html>")
}

report_latex <- function(title, parts) {
  one <- function(body) {
    if (inherits(body, "causal_svg") || !length(body)) return(character())
    if (inherits(body, "causal_verbatim")) return(c("\\begin{flushleft}\\ttfamily\\small", paste0(latex_escaped(ifelse(nzchar(body$lines), body$lines, "~")), "\\\\"), "\\end{flushleft}"))
    if (inherits(body, "causal_formula")) return(unclass(toLatex(body)))
    if (is.character(body)) return(c(latex_escaped(body), ""))
    cells <- lapply(report_table(body), function(column) latex_escaped(replace(column, is.na(column), "")))
    notes <- cells$note
    cells$note <- NULL
    rows <- if (nrow(as.data.frame(body))) paste0(do.call(paste, c(unname(cells), list(sep = " & "))), " \\\\")
    c("\\begin{center}\\footnotesize", paste0("\\begin{tabular}{", strrep("l", length(cells)), "}"), "\\hline",
      paste0(paste(latex_escaped(names(cells)), collapse = " & "), " \\\\"), "\\hline", rows, "\\hline", "\\end{tabular}", "\\end{center}", latex_escaped(report_notes(body)), "")
  }
  c("\\documentclass{article}", "\\usepackage[utf8]{inputenc}", "\\usepackage[T1]{fontenc}", "\\usepackage{amsmath}", "\\usepackage[margin=2cm]{geometry}",
    paste0("\\title{", latex_escaped(title), "}"), "\\date{}", "\\begin{document}", "\\maketitle",
    unlist(lapply(parts, function(part) c(paste0("\\section*{", latex_escaped(part$head), "}"), unlist(lapply(part$body, one))))), "\\end{document}")
}
