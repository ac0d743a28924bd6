# Natural effects: an effect were the mediators as they would be under another value of the exposures, and with it how much of an effect
# goes through mediators. The formula is the library's, and proved, and so are its values over counts; what is made of these is computed, and
# so are values by models (see natural_models.R).

natural_effect <- function(diagram, x = NULL, y = NULL, through, given = NULL, certificate = FALSE) {
  diagram <- as_causal_diagram(diagram)
  check_exposures(diagram, x)
  words <- c(option("through", through), option("x", x), option("y", y), option("given", condition_of(given)$names))
  told <- ask("natural", diagram, words)
  read <- read_natural(object_of(told))
  if (!told$yes) return(new_answer("causal_no_natural", read, told, diagram))
  new_answer("causal_natural", c(read, certificate_in_parts("natural", diagram, words, certificate)), told, diagram)
}

# What natural effects need of an answer: the sets, the factors with their trees, and what is nil.
read_natural <- function(object) {
  sets <- c(sets_in(object, c("y", "x", "through", "given", "second")), list(indirect = isTRUE(object$indirect), direct = isTRUE(object$direct)))
  read <- list(identifiable = object$answer == "formula", effect = object$effect, sets = sets)
  if (read$identifiable) return(c(read, list(expression = object$formula, summed = texts(object$summed), factors = lapply(object$factors, read_district))))
  joint <- term_text(texts(object$joint$y), texts(object$joint$x))
  object$given <- list()
  c(read, list(joint = joint, treatment = if (!is.null(object$treatment)) text_in(object$treatment), witness = if (!is.null(object$witness)) text_in(object$witness), district = texts(object$district)),
    if (object$answer == "hedge") list(hedge = utils::modifyList(read_hedge(object), list(target = joint))))
}

read_district <- function(object) {
  list(district = texts(object$district), reads = texts(object$reads), effect = object$effect, expression = object$formula, definitions = texts(object$definitions),
       free = texts(object$free), trees = read_trees(object))
}

# What is nil, whatever the values are.
nil_notes <- function(sets) {
  set <- function(names) paste0("{", paste(names, collapse = ","), "}")
  line <- function(way, effect) paste0("no directed path leads from ", set(sets$x), " ", way, " ", set(sets$through), " to ", set(sets$y), ": the ", effect, " effect is nil")
  c(if (!sets$indirect) line("through", "indirect"), if (!sets$direct) line("past", "direct"))
}

mediate <- function(diagram, data, x = NULL, y = NULL, through, treated = NULL, control = NULL, outcome = NULL, count = NULL, level = 0.95,
                    resamples = NULL, seed = 0, missing = c("error", "drop", "level"), progress = NULL, model = NULL, smoothing = 1,
                    factors = character(), interval = NULL, draws = 1000, exact = FALSE) {
  missing <- one_of(missing)
  if (!is.null(model) && isTRUE(exact)) refuse("values by models aren't exact")
  if (is.null(model) && !is.null(interval) && !identical(interval, "percentile")) refuse("a mediation by counts has percentile intervals; with a `model` there are those by influence functions")
  if (is.null(model) && is.null(resamples)) resamples <- 1000
  check_numbers(level, if (is.null(resamples)) 0 else resamples)
  diagram <- as_causal_diagram(diagram)
  formula <- natural_effect(diagram, x, y, through)
  if (!formula$identifiable) stop(no_natural_formula(formula))
  sets <- formula$sets
  if (length(sets$y) != 1) refuse("a mediation is of one outcome; here are ", paste(sets$y, collapse = ", "))
  asked <- list(x = if (is.null(x)) sets$x else as.character(x), typed = !is.null(x), y = sets$y, given = character(), levels = list())
  if (!is.null(model)) {
    words <- list(model = model, smoothing = smoothing, factors = factors, draws = draws)
    return(mediate_by_models(c(asked, list(diagram = diagram)), formula, data, count, missing, treated, control, outcome, words, level, interval, resamples, seed,
                             progress))
  }
  table <- count_table(diagram, character(), data, count, missing, keeps = sets$y, of = read_by_factors(formula))
  arms <- model_arms(asked, table, treated, control)
  targets <- mediation_targets(asked, table, outcome)
  weights <- if (targets$mean) numbers_of(table, sets$y) else as.numeric(seq_along(table$levels[[sets$y]]) == targets$codes)
  values <- natural_values(formula, table, arms, weights)
  own <- values(matrix(table$counts))
  if (anyNA(own)) refuse("no record has some condition of the formula, so that the natural effects have no value over these data; model = \"logistic\" gives values by models", kind = "no_value")
  told <- worlds_told(diagram, formula, table, arms, exact)
  if (!is.null(told)) {
    proved <- vapply(told, function(cells) sum(values_of(cells) * weights[cells$level]), 0)
    if (any(abs(proved - own[1, names(proved)]) > 1e-9 * (1 + abs(proved)))) refuse("the package computes another value of the formula than the library gives", kind = "internal")
    own[1, ] <- proved[colnames(own)]
  }
  seed <- seed_or_drawn(seed)
  drawn <- with_seed(seed, drawn_worlds(told_by(values, progress, resamples), table, resamples))
  found <- mediation_frame(formula, table, arms, targets, own, ends_of_worlds(drawn, level), level, "percentile", nrow(drawn), sum(is.na(drawn[, 1])), seed)
  structure(found, values = if (!is.null(told)) values_frame(told, table, sets$y))
}

# What the library gives over the counts in the three worlds, at each level of the outcome; NULL where it gives none.
worlds_told <- function(diagram, formula, table, arms, exact) {
  sets <- formula$sets
  words <- c(option("x", sets$x), option("y", sets$y), option("through", sets$through), "--natural", "--count", count_name(table), flag("exact", exact))
  told <- ask_table(diagram, words, table, hand_back = 5L)
  if (told$status != 0) return(NULL)
  object <- object_of(told)
  effects <- read_effects(object)
  second <- lapply(object$cells, function(cell) read_levels(cell$second))
  codes <- function(cells) matrix(as.integer(unlist(cells)), length(cells), byrow = TRUE)
  x <- codes(effects$x)
  under <- codes(second)
  level <- as.integer(vapply(effects$y, `[[`, "", 1))
  lapply(list(treated = arms[c(1, 1)], control = arms[c(2, 2)], between = arms[c(1, 2)]), function(world) {
    at <- colSums(t(x) != world[[1]][sets$x]) == 0 & colSums(t(under) != world[[2]][sets$x]) == 0
    c(list(level = level[at]), lapply(effects[intersect(c("fraction", "from", "to"), names(effects))], `[`, at))
  })
}

# The same as rows.
values_frame <- function(told, table, outcome) {
  rows <- lapply(names(told), function(world) {
    cells <- told[[world]]
    columns <- list(world = rep(world, length(cells$level)), level = table$levels[[outcome]][cells$level], estimate = values_of(cells))
    names(columns)[2] <- outcome
    frame_of(c(columns, cells[names(cells) != "level"]))
  })
  do.call(rbind, rows)
}

# What is asked of the outcome: the chance of one level, or its mean.
mediation_targets <- function(asked, table, outcome) {
  targets <- model_targets(asked, table, outcome)
  if (length(targets$codes) > 1) refuse("`outcome` names the level of ", asked$y, " whose chance is wanted; its levels are ", listed(level_labels(table$levels[[asked$y]])))
  targets
}

no_natural_formula <- function(formula) {
  message <- paste0(formula$effect, " is not identifiable; natural_effect() says why")
  structure(class = c("causal_not_identifiable", "causal_refusal", "error", "condition"), list(message = message, call = NULL, answer = formula))
}

# The columns that the formula needs, by the first names of x.
read_by_factors <- function(formula) {
  names <- unlist(lapply(formula$factors, function(factor) lapply(factor$trees, names_in)))
  unique(c(formula$sets$x, formula$sets$y, in_first(names, formula$sets)))
}

in_first <- function(names, sets) {
  at <- match(names, sets$second)
  ifelse(is.na(at), names, sets$x[at])
}

# A tree with the first names of x in place of the second ones.
first_tree <- function(tree, sets) {
  for (key in intersect(c("term", "given", "do", "sum"), names(tree))) tree[[key]] <- as.list(in_first(texts(tree[[key]]), sets))
  if (!is.null(tree$of)) tree$of <- first_tree(tree$of, sets)
  for (key in intersect(c("product", "quotient"), names(tree))) tree[[key]] <- lapply(tree[[key]], first_tree, sets)
  tree
}

# What gives the values over columns of counts: a row for each column, with x as treated, as control, and as treated where the mediators
# are as under control; NA where a world has no value.
natural_values <- function(formula, table, arms, weights) {
  sets <- formula$sets
  sizes <- lengths(table$levels)
  free <- pinned_of(formula)
  parts <- lapply(formula$factors, function(factor) {
    list(second = sets$x[factor$reads %in% sets$second], trees = lapply(factor$trees, first_tree, sets))
  })
  if (max(vapply(parts, function(part) largest_node(part$trees, sizes), 0), prod(sizes[unique(c(formula$summed, sets$y))])) > 2^20)
    refuse("the natural effects have too many combinations of levels: fewer classes may help")
  worlds <- list(treated = arms[c(1, 1)], control = arms[c(2, 2)], between = arms[c(1, 2)])
  function(counts) {
    scope <- counts_scope(table$codes, sizes, as.matrix(counts), c(sets$x, sets$y, free), TRUE)
    factors <- lapply(parts, function(part) trees_factor(part$trees, scope))
    found <- vapply(worlds, function(world) {
      own <- Map(function(factor, part) factor_at(factor, replace(world[[1]], part$second, world[[2]][part$second]), sizes), factors, parts)
      whole <- sum_factor(Reduce(function(a, b) product_factor(a, b, scope), own), formula$summed, scope)
      outcome_of(whole, sets$y, weights, sizes)
    }, numeric(ncol(as.matrix(counts))))
    found <- matrix(found, ncol = 3, dimnames = list(NULL, names(worlds)))
    found[rowSums(!is.finite(found)) > 0, ] <- NA
    found
  }
}

# A factor at levels of some of its names.
factor_at <- function(factor, codes, sizes) {
  for (name in intersect(names(codes), factor$names)) {
    rest <- setdiff(factor$names, name)
    before <- prod(sizes[factor$names[seq_len(match(name, factor$names) - 1)]])
    kept <- (seq_len(nrow(factor$values)) - 1) %/% before %% sizes[[name]] == codes[[name]] - 1
    factor <- new_factor(rest, factor$values[kept, , drop = FALSE])
  }
  factor
}

# The chance of the outcome's level, or its mean; what is free is at its first level.
outcome_of <- function(factor, outcome, weights, sizes) {
  cells <- matrix(1L, sizes[[outcome]], length(factor$names), dimnames = list(NULL, factor$names))
  cells[, outcome] <- seq_len(sizes[[outcome]])
  found <- at_cells(factor, cells, sizes)
  drop(weights[weights != 0] %*% found[weights != 0, , drop = FALSE])
}

drawn_worlds <- function(values, table, resamples) {
  if (resamples == 0) return(matrix(NA_real_, 0, 3, dimnames = list(NULL, c("treated", "control", "between"))))
  size <- sum(table$counts)
  if (size > .Machine$integer.max) refuse("the bootstrap draws at most ", .Machine$integer.max, " records; use resamples = 0")
  blocks <- split(seq_len(resamples), (seq_len(resamples) - 1) %/% max(1, min(250, floor(4e6 / length(table$counts)))))
  do.call(rbind, lapply(blocks, function(block) values(stats::rmultinom(length(block), size, table$counts))))
}

mediation_measures <- list(
  treated = function(worlds) worlds[, "treated"],
  control = function(worlds) worlds[, "control"],
  between = function(worlds) worlds[, "between"],
  total = function(worlds) worlds[, "treated"] - worlds[, "control"],
  direct = function(worlds) worlds[, "between"] - worlds[, "control"],
  indirect = function(worlds) worlds[, "treated"] - worlds[, "between"],
  proportion = function(worlds) {
    total <- worlds[, "treated"] - worlds[, "control"]
    ifelse(total == 0, NA, (worlds[, "treated"] - worlds[, "between"]) / total)
  }
)

# What is pinned: what the formula reads beside its sets, at any level.
pinned_of <- function(formula) {
  read <- list()
  for (tree in joined_trees(formula)) read <- c(read, list(names_read(tree, read)))
  sort(setdiff(read[[length(read)]], c(formula$sets$x, formula$sets$second, formula$sets$y)))
}

# The names on which the value of a tree depends; those of definitions are told.
names_read <- function(tree, definitions) {
  if (!is.null(tree$definition)) return(definitions[[tree$definition + 1]])
  inner <- unlist(lapply(inner_trees(tree), names_read, definitions))
  setdiff(c(texts(tree$term), texts(tree$do), texts(tree$given), inner), texts(tree$sum))
}

proportion_caution <- "the proportion says little: the direct and the indirect effect have opposite signs, or the total may be near 0"

# The ends of each measure's interval, of its values over resamples.
ends_of_worlds <- function(drawn, level) {
  vapply(mediation_measures, function(measure) {
    have <- measure(drawn)
    percentile_interval(have[is.finite(have)], level)
  }, c(0, 0))
}

mediation_frame <- function(formula, table, arms, targets, own, ends, level, interval, resamples, lost, seed, fits = NULL, drawn = character()) {
  estimate <- vapply(mediation_measures, function(measure) unname(measure(own)), 0)
  low <- unname(ends[1, ])
  high <- unname(ends[2, ])
  at <- match(c("total", "direct", "indirect", "proportion"), names(estimate))
  is_open <- isTRUE(low[at[1]] <= 0 && high[at[1]] >= 0) || estimate[at[1]] == 0 || prod(estimate[at[2:3]]) < 0
  bad <- nzchar(fits$note)
  told <- c(paste0(fits$model[bad], ": ", fits$note[bad], recycle0 = TRUE), if (lost > 0) paste(lost, "of", resamples, "resamples had no value"),
            if (any(is.nan(low))) "no interval: the fit doesn't tell how far it could be")
  note <- rep(paste(told, collapse = "; "), length(estimate))
  if (is_open) note[at[4]] <- paste(c(note[at[4]][nzchar(note[at[4]])], proportion_caution), collapse = "; ")
  if (any(bad)) doubt(paste(told[seq_len(sum(bad))], collapse = "; "))
  if (lost >= 0.05 * resamples && lost > 0) doubt(lost, " of ", resamples, " resamples had no value, so that the intervals are too narrow")
  labels <- lapply(arms, function(arm) arm_text(labels_at(table, arm)))
  columns <- list(treated = rep(labels$treated, length(estimate)), control = rep(labels$control, length(estimate)), measure = names(estimate),
                  estimate = unname(estimate), conf_low = low, conf_high = high, note = note)
  sets <- formula$sets
  free <- pinned_of(formula)
  structure(frame_of(columns), class = c("causal_mediation", "causal_rows", "data.frame"), formula = formula, exposures = sets$x, through = sets$through,
            outcome = if (targets$mean) sets$y else paste0(sets$y, "=", level_labels(table$levels[[sets$y]])[targets$codes]), mean = targets$mean, level = level,
            interval = interval, resamples = resamples, without_value = lost, seed = if (interval == "percentile") seed, dropped = table$dropped, models = fits, drawn = drawn,
            pinned = levels_at(table, stats::setNames(rep(1L, length(free)), free)))
}

print.causal_mediation <- function(x, digits = 4, ...) {
  if (is.null(attr(x, "formula")) || !all(c("treated", "measure", "estimate") %in% names(x))) return(print.data.frame(x, digits = digits, ...))
  formula <- attr(x, "formula")
  writeLines(c(paste0("treated: ", named_arm(x, "treated")[1], "; control: ", named_arm(x, "control")[1], "; ", if (attr(x, "mean")) "mean of " else "outcome: ",
                      attr(x, "outcome"), "; through ", paste(attr(x, "through"), collapse = ", ")),
               paste0(if (is.null(attr(x, "models"))) "formula: " else "computed: ", formula$effect, " = ", formula$expression), nil_notes(formula$sets), model_notes(attr(x, "models"), attr(x, "drawn")), head_notes(x)))
  shown <- as.data.frame(x)[c("measure", "estimate", "conf_low", "conf_high")]
  is_influence <- attr(x, "interval") == "influence"
  if (attr(x, "resamples") == 0 && !is_influence) shown <- shown[c("measure", "estimate")]
  print.data.frame(shown, digits = digits, row.names = FALSE, ...)
  kind <- if (is_influence) paste0(100 * attr(x, "level"), "% intervals by influence functions") else if (attr(x, "resamples") > 0) interval_note(x)
  writeLines(c(kind, row_notes(x)))
  invisible(x)
}

as.data.frame.causal_mediation <- function(x, ...) as.data.frame.causal_implications(x)
