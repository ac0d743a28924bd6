# The questions about a diagram alone. Each is a command of the library, and its answer what its object says.

# An answer of a class: what was read, the question, and the diagram asked about.
new_answer <- function(class, read, told, diagram) {
  structure(c(read, list(asked = told$asked, diagram = diagram)), class = c(class, "causal_answer"))
}

# The text that the library prints for an answer is asked for where it is wanted.
`$.causal_answer` <- function(x, name) {
  if (identical(name, "text")) text_of(.subset2(x, "asked"), .subset2(x, "diagram")) else .subset2(x, name)
}

`[[.causal_answer` <- `$.causal_answer`

print.causal_answer <- function(x, ...) {
  cat(x$text, "\n", sep = "")
  invisible(x)
}

format.causal_answer <- function(x, ...) x$text

as.character.causal_answer <- function(x, ...) x$text

# Yes or no, of an answer that is one; a formula is a yes, and what stands in its place a no.
as.logical.causal_answer <- function(x, ...) {
  holds <- if (is.null(x$holds)) x$identifiable else x$holds
  if (is.null(holds)) refuse("this answer isn't yes or no")
  holds
}

summary.causal_answer <- function(object, ...) object

print.causal_path <- function(x, ...) {
  cat(x$text, "\n", sep = "")
  invisible(x)
}

as.character.causal_path <- function(x, ...) x$text

separated <- function(diagram, x = NULL, y = NULL, given = NULL) {
  diagram <- as_causal_diagram(diagram)
  told <- ask("separate", diagram, c(option("x", x), option("y", y), option("given", given)))
  new_answer("causal_separation", read_separation(object_of(told)), told, diagram)
}

rule_holds <- function(diagram, rule, y, z, do = NULL, given = NULL) {
  diagram <- as_causal_diagram(diagram)
  if (length(rule) != 1 || !rule %in% 1:3) refuse("`rule` is 1, 2 or 3")
  words <- c("--rule", as.character(as.integer(rule)), option("y", y), option("z", z), option("do", do), option("given", given))
  told <- ask("rule", diagram, words)
  new_answer("causal_rule", read_rule(object_of(told)), told, diagram)
}

# A method for the interactive call of the package graphics, whose first argument has the name `x` too.
identify.causal_diagram <- function(x, ...) identify_effect(x, ...)

identify_effect <- function(diagram, x = NULL, y = NULL, given = NULL, short = FALSE) {
  diagram <- as_causal_diagram(diagram)
  check_exposures(diagram, x)
  given <- condition_of(given)$names
  words <- c(option("x", x), option("y", y), option("given", given), flag("short", short))
  told <- ask("identify", diagram, words, certificate = TRUE)
  object <- object_of(told)
  if (told$yes) new_formula(object, told, diagram) else new_hedge(object, told, diagram)
}

new_formula <- function(object, told, diagram) {
  read <- c(list(identifiable = TRUE), read_formula(object), list(trees = read_trees(object), parts = sets_in(object, c("y", "x", "given"))),
            list(certificate = object$certificate))
  new_answer("causal_formula", read, told, diagram)
}

new_hedge <- function(object, told, diagram) {
  read <- c(list(identifiable = FALSE), read_hedge(object), list(certificate = object$certificate))
  new_answer("causal_hedge", read, told, diagram)
}

summary.causal_hedge <- function(object, ...) structure(object, class = c("summary.causal_hedge", class(object)))

# The hedge without the two models.
print.summary.causal_hedge <- function(x, ...) {
  lines <- lines_of(x$text)
  writeLines(lines[grepl("^(P|district|hedge|choice|link|event)", lines)])
  invisible(x)
}

# With `models` the two models that exclude every formula, where there are such. They come with the certificate, so that without
# `models` the answer is another one.
surrogate <- function(diagram, x = NULL, y = NULL, experiments, models = FALSE) {
  if (missing(experiments)) refuse("`experiments` has the sets of variables on which there are trials, as in list(\"Z\", c(\"A\", \"B\"))")
  diagram <- as_causal_diagram(diagram)
  check_exposures(diagram, x)
  words <- c(option("x", x), option("y", y), "--experiments", experiments_word(experiments))
  told <- ask("surrogate", diagram, words, certificate = TRUE)
  object <- object_of(told)
  if (object$answer == "hedge" && !models) {
    told <- ask("surrogate", diagram, words)
    object <- object_of(told)
  }
  told$asked$words <- c(words, flag("models", models))
  if (told$yes) return(new_formula(object, told, diagram))
  if (object$answer == "hedge") return(new_hedge(object, told, diagram))
  new_answer("causal_stopped", c(list(identifiable = FALSE), read_stopped(object)), told, diagram)
}

check_certificate <- function(diagram, certificate, experiments = NULL) {
  diagram <- as_causal_diagram(diagram)
  told <- ask_certificate("check", diagram, certificate, experiments)
  new_answer("causal_judgement", c(list(holds = told$yes), read_judgement(object_of(told))), told, diagram)
}

steps <- function(diagram, certificate, experiments = NULL) {
  diagram <- as_causal_diagram(diagram)
  told <- ask_certificate("steps", diagram, certificate, experiments)
  object <- object_of(told)
  class <- if (object$answer == "explained") "causal_steps" else "causal_judgement"
  new_answer(class, c(list(holds = told$yes), read_steps(object)), told, diagram)
}

# The certificate in parts of a formula that a command gives, where it is wanted.
certificate_in_parts <- function(command, diagram, words, wanted) {
  check_flag("certificate", wanted)
  if (wanted) list(certificate = sub("\n$", "", answer_to(command, diagram, c(words, "--certificate"), list())$out))
}

# What a command answers on a certificate, or on that of an answer.
ask_certificate <- function(command, diagram, certificate, experiments) {
  if (inherits(certificate, c("causal_formula", "causal_hedge", "causal_natural"))) certificate <- certificate$certificate
  if (is.null(certificate)) refuse("this answer has no certificate: those of `identify_effect` and `surrogate` have one, and with certificate = TRUE formulas of `treated_effect` and `natural_effect`")
  words <- c("certificate", if (length(experiments)) c("--experiments", experiments_word(experiments)))
  ask(command, diagram, words, list(certificate = as_bytes(certificate)))
}

# A row for each expression, with the move that makes it.
as.data.frame.causal_steps <- function(x, ...) x$steps

adjustment_sets <- function(diagram, x = NULL, y = NULL, most = 100) {
  diagram <- as_causal_diagram(diagram)
  check_whole("most", most, 1, 10000)
  told <- ask("adjust", diagram, c(option("x", x), option("y", y), "--most", format(most, scientific = FALSE)))
  object <- object_of(told)
  new_answer("causal_sets", list(sets = lapply(object$sets, texts), more = object$more), told, diagram)
}

as.list.causal_sets <- function(x, ...) x$sets

# A row for each set and member; an empty set has none.
as.data.frame.causal_sets <- function(x, ...) {
  frame_of(list(set = rep(seq_along(x$sets), lengths(x$sets)), name = as.character(unlist(x$sets))))
}

adjusts <- function(diagram, set, x = NULL, y = NULL, back_door = FALSE) {
  diagram <- as_causal_diagram(diagram)
  words <- c(option("x", x), option("y", y), option("set", as.character(set)), flag("back-door", back_door))
  told <- ask("adjust", diagram, words)
  new_answer("causal_adjustment", read_adjustment(object_of(told)), told, diagram)
}

instruments <- function(diagram, x = NULL, y = NULL, most = 100) {
  diagram <- as_causal_diagram(diagram)
  check_whole("most", most, 1, 10000)
  told <- ask("instruments", diagram, c(option("x", x), option("y", y), "--most", format(most, scientific = FALSE)))
  new_answer("causal_instruments", read_instruments(object_of(told)), told, diagram)
}

as.list.causal_instruments <- function(x, ...) x$strata

# A row for each vertex and set; the empty set is one too.
as.data.frame.causal_instruments <- function(x, ...) {
  sets <- unlist(unname(x$strata), recursive = FALSE)
  frame_of(list(instrument = rep(names(x$strata), lengths(x$strata)), strata = vapply(sets, cell_or_set, "")))
}

equivalent <- function(diagram, other, x = NULL, y = NULL, given = NULL) {
  diagram <- as_causal_diagram(diagram)
  other <- as_causal_diagram(other)
  words <- c("other", option("x", x), option("y", y), option("given", given))
  told <- ask("equivalent", diagram, words, list(other = other$text))
  new_answer("causal_equivalence", read_equivalence(object_of(told)), told, diagram)
}
