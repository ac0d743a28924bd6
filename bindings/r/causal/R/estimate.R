# Estimates by models where tables are thin. The formula, or that a set may be adjusted for, is the library's; the models and all else is
# computed.

estimate <- function(diagram, data, x = NULL, y = NULL, treated = NULL, control = NULL, outcome = NULL,
                     method = c("formula", "ipw", "aipw"), model = "logistic", set = NULL, given = NULL, count = NULL, level = 0.95,
                     resamples = NULL, seed = 0, missing = c("error", "drop", "level"), weights = NULL, clusters = NULL, strata = NULL,
                     smoothing = 1, at = NULL, short = is.null(set), progress = NULL, interval = NULL, factors = character(), observed = NULL,
                     trials = NULL, experiments = NULL, draws = 1000) {
  method <- one_of(method)
  missing <- one_of(missing)
  check_numbers(level, if (is.null(resamples)) 0 else resamples)
  if (!is.null(interval)) check_word("interval", interval, c("influence", "percentile"))
  if (!is.numeric(smoothing) || length(smoothing) != 1 || !isTRUE(smoothing >= 0)) refuse("`smoothing` is a number of records from 0")
  check_whole("draws", draws, 1)
  asked <- asked_for_models(as_causal_diagram(diagram), x, y, set, given, method, short, observed, experiments_of(experiments, trials))
  table <- model_table(asked, data, count, missing, design_of(weights, clusters, strata), trials, at)
  options <- list(models = read_models(model), smoothing = smoothing, factors = factors_of(factors, asked, table), draws = draws)
  arms <- model_arms(asked, table, treated, control)
  targets <- model_targets(asked, table, outcome)
  estimator <- if (is.null(asked$set)) formula_estimator(asked, table, arms, targets, options) else set_estimator(asked, table, arms, targets, options, method)
  estimate_frame(asked, table, arms, targets, estimator, method, level, interval, resamples, seed_or_drawn(seed), progress)
}

# The sets of variables that trials set: by their names, as in list(Z = ..) or list("A,B" = ..), or as `experiments` has them.
experiments_of <- function(experiments, trials) {
  if (is.null(trials)) {
    if (!is.null(experiments)) refuse("`experiments` says what `trials` set; these have the data")
    return(NULL)
  }
  if (!is.null(experiments)) return(if (is.list(experiments)) experiments else list(experiments))
  if (is.data.frame(trials) || !is.list(trials) || is.null(names(trials)) || !all(nzchar(names(trials))))
    refuse("`trials` is a list of data by what was set in each, as list(Z = ..), or \"A,B\" for two variables")
  lapply(strsplit(names(trials), ",", fixed = TRUE), trimws)
}

# What is asked for: by a set that the library calls admissible, or by a formula: also that of the effect among the treated, or from
# experiments. A formula that is a standardisation over a set is taken as that, so that its members may have any number of values.
asked_for_models <- function(diagram, x, y, set, given, method, short, among, experiments) {
  if (!is.null(among) || !is.null(experiments)) {
    if (method != "formula" || !is.null(set)) refuse("an effect among the treated, or from experiments, goes by its own formula: with method = \"formula\" and no `set`")
    if (!is.null(among) && !is.null(experiments)) refuse("`observed` and `trials` are two questions: give one")
    return(if (is.null(among)) asked_from_experiments(diagram, x, y, given, experiments) else asked_among(diagram, x, y, given, among))
  }
  if (is.null(set) && method != "formula") {
    listed <- adjustment_sets(diagram, x, y, most = 1)$sets
    if (!length(listed)) refuse("no set can be adjusted for here, so that there is nothing to weight by; method = \"formula\" goes by the formula",
                                kind = "not_admissible")
    set <- listed[[1]]
  }
  asked <- asked_of(diagram, x, y, set, given, zero = TRUE, short = is.null(set) && isTRUE(short))
  if (is.null(set) && !length(given)) asked$set <- standardised_over(asked)
  if (!is.null(asked$set)) asked$set <- as.character(asked$set)
  asked
}

# The formula of another question, whose columns are those that its trees name. `observed` has second names of exposures, of the levels that
# were observed.
asked_by_trees <- function(diagram, told, x, y, condition, observed = character()) {
  object <- object_of(told)
  list(diagram = diagram, formula = read_formula(object), trees = read_trees(object), x = texts(object$x), typed = !is.null(x), y = texts(object$y),
       given = condition$names, levels = condition$levels, set = NULL, zero = TRUE, short = FALSE, observed = observed)
}

# The effect among the treated by its formula; or where it has none and `by_levels` lets it, by two levels of the exposure.
asked_among <- function(diagram, x, y, given, among, by_levels = FALSE) {
  check_exposures(diagram, x)
  condition <- condition_of(given)
  told <- ask("treated", diagram, c(option("x", x), option("y", y), option("given", condition$names)))
  object <- object_of(told)
  seconds <- stats::setNames(texts(object$observed), texts(object$x))
  if (told$yes) return(c(asked_by_trees(diagram, told, x, y, condition, seconds), list(among = among)))
  if (is.null(object$two_values)) refuse_treated(object, "; treated_effect() says why")
  if (!by_levels) refuse_treated(object, "; evaluate() and contrast() have values where ", names(seconds), " has two levels")
  joint <- ask("identify", diagram, c(option("x", texts(object$joint$x)), option("y", texts(object$joint$y))))
  asked <- asked_by_trees(diagram, joint, x, y, condition, seconds)
  utils::modifyList(asked, list(y = texts(object$y), split = paste0("two values of ", names(seconds), ": ", text_in(object$two_values)), among = among))
}

refuse_treated <- function(object, ...) {
  refuse("the effect among the treated has no formula: ", object$effect, " is not identifiable", ..., kind = "not_identifiable")
}

asked_from_experiments <- function(diagram, x, y, given, experiments) {
  check_exposures(diagram, x)
  if (length(given)) refuse("an effect from experiments is estimated without a condition")
  told <- ask("surrogate", diagram, c(option("x", x), option("y", y), "--experiments", experiments_word(experiments)))
  if (!told$yes) refuse("these experiments give no formula: ", object_of(told)$effect, " has no formula found from these experiments; surrogate() says why",
                        kind = "not_identifiable")
  c(asked_by_trees(diagram, told, x, y, condition_of(NULL)), list(experiments = if (is.list(experiments)) experiments else list(experiments)))
}

# The table of the records that an estimate is made of, with its rows as values (`frame`) too.
model_table <- function(asked, data, count, missing, design, trials, at) {
  if (!is.null(asked$experiments)) {
    table <- table_of_trials(asked, data, trials, count, missing, design)
  } else {
    of <- if (!is.null(asked$set)) unique(c(asked$x, asked$y, asked$set))
          else if (length(second_names(asked))) setdiff(unique(c(asked$x, asked$y, asked$given, unlist(lapply(asked$trees, names_in)))), second_names(asked))
    table <- count_table(asked$diagram, asked$words, data, count, missing, keeps = asked$y, design = design, of = of)
  }
  table <- pin(with_second_names(table, second_names(asked)), first_places(table, asked$formula$free, at))
  table$frame <- model_rows(table, table$codes)
  table
}

# Second names of exposures: of levels that were observed, or that mediators have.
second_names <- function(asked) c(asked$observed, asked$second)

# All names of a tree.
names_in <- function(tree) {
  unique(c(texts(tree$term), texts(tree$given), texts(tree$do), texts(tree$sum), unlist(lapply(inner_trees(tree), names_in))))
}

inner_trees <- function(tree) c(if (!is.null(tree$of)) list(tree$of), tree$product, tree$quotient)

# The set over which a formula standardises: it sums a term of the outcomes, given the exposures and the set, times terms of the set alone,
# and the set is admissible. NULL where it is another formula.
standardised_over <- function(asked) {
  tree <- asked$trees[[length(asked$trees)]]
  if (length(asked$trees) > 1) return(NULL)
  over <- texts(tree$sum)
  inner <- if (length(over)) tree$of else tree
  parts <- if (!is.null(inner$product)) inner$product else list(inner)
  if (!all(vapply(parts, function(part) !is.null(part$term), NA))) return(NULL)
  of_outcome <- vapply(parts, function(part) any(asked$y %in% texts(part$term)), NA)
  if (sum(of_outcome) != 1 || !setequal(texts(parts[[which(of_outcome)]]$term), asked$y)) return(NULL)
  others <- unlist(lapply(parts[!of_outcome], function(part) c(texts(part$term), texts(part$given))))
  if (any(c(asked$x, asked$y) %in% others) || !setequal(unlist(lapply(parts[!of_outcome], function(part) texts(part$term))), over)) return(NULL)
  if (!all(asked$x %in% texts(parts[[which(of_outcome)]]$given))) return(NULL)
  if (adjusts(asked$diagram, over, asked$x, asked$y)$holds) over
}

# The levels of both arms, as codes by exposure.
model_arms <- function(asked, table, treated, control) {
  if (!length(asked$x)) refuse("an estimate compares two arms, and needs an exposure")
  sizes <- lengths(table$levels[asked$x])
  if (is.null(treated) && is.null(control) && length(asked$x) == 1 && sizes == 2) {
    treated <- level_of(table, asked$x, 2)
    control <- level_of(table, asked$x, 1)
  }
  if (is.null(treated) || is.null(control))
    refuse("`treated` and `control` have to name the levels of ", paste(asked$x, collapse = ", "), "; ", levels_told(table, asked$x))
  cells <- expand.grid(lapply(table$levels[asked$x], seq_along))
  told <- list(asked = asked, table = table, effects = list(x = lapply(seq_len(nrow(cells)), function(k) unlist(cells[k, , drop = FALSE]))))
  arms <- lapply(list(treated = treated, control = control), function(arm) unlist(cells[which(arm_of(arm, told, asked$x))[1], , drop = FALSE]))
  check_arms(arms)
  arms
}

# What is estimated of the outcome: the chance of some of its levels, or the mean of one with more than two numbers.
model_targets <- function(asked, table, outcome) {
  if (length(asked$y) != 1) refuse("an estimate by models is of one outcome; here are ", paste(asked$y, collapse = ", "))
  levels <- table$levels[[asked$y]]
  if (is.null(outcome) && is.numeric(levels) && length(levels) > 2) return(list(mean = TRUE, codes = NULL))
  if (is.null(outcome)) return(list(mean = FALSE, codes = if (length(levels) == 2) 2L else seq_along(levels)))
  place <- place_of_level(levels, if (is.list(outcome)) outcome[[1]] else outcome)
  if (is.na(place)) no_level(asked$y, as.character(outcome), level_labels(levels))
  list(mean = FALSE, codes = place)
}

# The rows of the table as values: numbers stay numbers, all else is a factor.
model_rows <- function(table, codes) {
  frame_of(lapply(stats::setNames(colnames(codes), colnames(codes)), function(name) {
    levels <- table$levels[[name]]
    if (is.numeric(levels) && !anyNA(levels)) as.vector(levels)[codes[, name]] else factor(level_labels(levels)[codes[, name]], level_labels(levels))
  }))
}
