# Sums of a formula by simulation, where a variable has too many values for a table: it is drawn. Its draws come of the records that have
# what it is given, where that has levels, and else of a linear regression with the residuals that it has. A drawn variable stands with its
# draws in place of a sum, so that no chance of a single value is asked for.

# What is drawn: what is summed over and has more than 50 numbers; or all that is summed over, where there are too many combinations.
drawn_names <- function(asked, table, sizes) {
  summed <- unique(unlist(lapply(asked$trees, summed_names)))
  many <- summed[vapply(summed, function(name) is_many(table, name), NA)]
  if (largest_node(asked$trees, replace(sizes, many, 1)) > 2^20) summed else many
}

is_many <- function(table, name) is.numeric(table$levels[[name]]) && length(table$levels[[name]]) > 50

summed_names <- function(tree) c(texts(tree$sum), unlist(lapply(inner_trees(tree), summed_names)))

# The models by which the variables of a term are drawn: by records, or one after the other.
new_maker <- function(term, scope) {
  given <- union(term$do, term$given)
  own <- names(scope$options$models)
  from_records <- !any(vapply(given, function(name) is_many(scope$table, name), NA)) && !any(term$of %in% own)
  source <- source_of(term$do, scope$asked)
  if (from_records) {
    key <- paste(c(source, "drawn", term$of, "", sort(given)), collapse = "\r")
    label <- paste0(paste(printed(term$of), collapse = ", "), if (length(given)) paste0(" by {", paste(given, collapse = ","), "}"))
    fit <- function(weights) list(weights = weights, notes = character(), deviance = NA, null_deviance = NA, parameters = NA)
    return(stats::setNames(list(list(kind = "drawn from records", label = label, name = term$of[1], given = given, of = term$of, fit = fit, source = source)), key))
  }
  steps <- steps_of(term, scope)
  models <- lapply(steps, function(step) {
    if (!is_many(scope$table, step$name)) return(step_model(step, scope))
    model <- new_model(step$name, step$given, scope$table, models_of(step, scope), 0, TRUE, scope$options$factors)
    model$kind <- paste0(model$kind, ", drawn with its residuals")
    c(model, list(order = step$given, source = step$source))
  })
  stats::setNames(models, vapply(steps, `[[`, "", "key"))
}

# The values of both arms.
simulated_values <- function(scope, fits, weights, cells) {
  scope$fits <- fits
  scope$weights <- weights
  all <- do.call(rbind, cells)
  names <- colnames(all)
  world <- list(size = nrow(all), codes = lapply(stats::setNames(names, names), function(name) all[, name]))
  world$values <- lapply(stats::setNames(names, names), function(name) value_column(scope, name, all[, name]))
  found <- simulated_value(scope$asked$trees[[length(scope$asked$trees)]], world, scope)
  split(found, rep(factor(names(cells), names(cells)), vapply(cells, nrow, 1L)))
}

value_column <- function(scope, name, codes) model_rows(scope$table, matrix(codes, dimnames = list(NULL, name)))[[1]]

simulated_value <- function(tree, world, scope) {
  if (!is.null(tree$definition)) return(simulated_value(scope$asked$trees[[tree$definition + 1]], world, scope))
  if (!is.null(tree$term)) return(term_in_world(list(of = texts(tree$term), given = texts(tree$given), do = texts(tree$do)), world, scope))
  if (!is.null(tree$sum)) return(simulated_sum(tree, world, scope))
  parts <- lapply(if (is.null(tree$quotient)) tree$product else tree$quotient, simulated_value, world, scope)
  if (!is.null(tree$quotient)) return(parts[[1]] / parts[[2]])
  Reduce(`*`, parts, rep(1, world$size))
}

# The chance of a term in each world.
term_in_world <- function(term, world, scope) {
  if (any(term$of %in% scope$drawn))
    refuse("the formula reads how likely single values of ", intersect(term$of, scope$drawn)[1], " are, of which there are too many; cut it to classes, or name a `set`",
           kind = "model_refusal")
  found <- rep(1, world$size)
  for (step in steps_of(term, scope)) {
    chances <- predicted(step, world, scope)
    found <- found * if (scope$targets$mean && step$name == scope$asked$y) chances[, 1] else chances[cbind(seq_len(world$size), world$codes[[step$name]])]
  }
  found
}

predicted <- function(step, world, scope) {
  model <- scope$models[[step$key]]
  if (isTRUE(model$by_codes) && any(vapply(step$given, function(name) anyNA(world$codes[[name]]), NA)))
    refuse("a table of ", step$name, " can't be given ", paste(step$given, collapse = ", "), ", which has too many values", kind = "model_refusal")
  rows <- if (isTRUE(model$by_codes)) matrix(as.integer(unlist(world$codes[step$given])), world$size, length(step$given), dimnames = list(NULL, step$given))
          else if (length(step$given)) frame_of(world$values[step$given]) else structure(list(), class = "data.frame", row.names = .set_row_names(world$size))
  scope$fits[[step$key]]$predict(model$rows(rows))
}

simulated_sum <- function(tree, world, scope) {
  over <- texts(tree$sum)
  parts <- if (!is.null(tree$of$product)) tree$of$product else list(tree$of)
  makes <- vapply(parts, function(part) !is.null(part$term) && any(texts(part$term) %in% scope$drawn), NA)
  made <- unlist(lapply(parts[makes], function(part) texts(part$term)))
  unmade <- setdiff(intersect(over, scope$drawn), made)
  if (length(unmade) || anyDuplicated(made) || !all(made %in% over))
    refuse("the formula can't be drawn: no single term makes ", c(unmade, made)[1], "; cut it to classes, or name a `set`", kind = "model_refusal")
  rest <- setdiff(over, made)
  levels <- prod(scope$sizes[rest])
  draws <- if (length(made)) max(1, min(scope$options$draws, floor(4e5 / (world$size * levels)))) else 1
  world <- with_levels_of(world, rest, scope)
  if (length(made)) world <- with_draws(world, lapply(parts[makes], function(part) terms_of(part)[[1]]), draws, scope)
  values <- Reduce(`*`, lapply(parts[!makes], simulated_value, world, scope), rep(1, world$size))
  colSums(matrix(colMeans(matrix(values, draws)), levels))
}

# Some rows of worlds.
worlds_at <- function(world, rows) {
  list(size = length(rows), codes = lapply(world$codes, `[`, rows), values = lapply(world$values, `[`, rows))
}

# Each world with each combination of levels of some variables.
with_levels_of <- function(world, names, scope) {
  if (!length(names)) return(world)
  grid <- as.matrix(expand.grid(lapply(scope$sizes[names], seq_len)))
  wide <- worlds_at(world, rep(seq_len(world$size), each = nrow(grid)))
  for (name in names) {
    codes <- rep(unname(grid[, name]), world$size)
    wide$codes[[name]] <- codes
    wide$values[[name]] <- value_column(scope, name, codes)
  }
  wide
}

# Each world with draws of some terms, each after those that it is given.
with_draws <- function(world, terms, draws, scope) {
  wide <- worlds_at(world, rep(seq_len(world$size), each = draws))
  while (length(terms)) {
    waiting <- unlist(lapply(terms, `[[`, "of"))
    ready <- which(vapply(terms, function(term) !any(union(term$given, term$do) %in% waiting), NA))
    if (!length(ready)) refuse("the formula can't be drawn: its terms wait for each other", kind = "model_refusal")
    wide <- drawn_term(wide, terms[[ready[1]]], draws, scope)
    terms <- terms[-ready[1]]
  }
  wide
}

# Evenly spaced parts of 1, in an order by chance that is the same for each arm and each resample; one for each world.
spaced <- function(name, draws, worlds, scope) {
  size <- if (draws >= 30) draws else worlds
  order <- with_seed(match(name, scope$table$names), sample.int(size))
  rep_len((order - 0.5) / size, worlds)
}

drawn_term <- function(world, term, draws, scope) {
  key <- paste(c(source_of(term$do, scope$asked), "drawn", term$of, "", sort(union(term$do, term$given))), collapse = "\r")
  if (!is.null(scope$models[[key]])) return(drawn_from_records(world, term, scope$models[[key]], spaced(term$of[1], draws, world$size, scope), scope$fits[[key]]$weights, scope))
  for (step in steps_of(term, scope)) {
    part <- spaced(step$name, draws, world$size, scope)
    found <- predicted(step, world, scope)
    if (is_many(scope$table, step$name)) {
      model <- scope$models[[step$key]]
      known <- if (isTRUE(model$by_codes)) model$rows(scope$table$codes) else model$rows(scope$table$frame)
      residuals <- scope$table$frame[[step$name]] - scope$fits[[step$key]]$predict(known)[, 1]
      weights <- if (is.null(scope$table$source_of)) scope$weights else scope$weights * (scope$table$source_of == step$source)
      world$values[[step$name]] <- found[, 1] + quantile_at(residuals, weights, part)
      world$codes[[step$name]] <- rep(NA_integer_, world$size)
    } else {
      below <- t(apply(found, 1, cumsum))
      codes <- pmin(1L + as.integer(rowSums(part > below)), ncol(found))
      world$codes[[step$name]] <- codes
      world$values[[step$name]] <- value_column(scope, step$name, codes)
    }
  }
  world
}

# The number below which this part of the weights lies.
quantile_at <- function(numbers, weights, part) {
  kept <- which(weights > 0 & is.finite(numbers))
  kept <- kept[order(numbers[kept])]
  numbers[kept][1 + findInterval(part, cumsum(weights[kept])[-length(kept)] / sum(weights[kept]))]
}

# Whole records of those that have what is given, in the order of the first variable that is drawn.
drawn_from_records <- function(world, term, model, part, weights, scope) {
  of <- term$of
  key_of <- function(codes) if (length(model$given)) do.call(paste, unname(codes[model$given])) else rep("", length(codes[[1]]))
  table <- scope$table
  here <- key_of(lapply(stats::setNames(table$names, table$names), function(name) table$codes[, name]))
  wanted <- if (length(model$given)) key_of(world$codes) else rep("", world$size)
  at <- rep(NA_integer_, world$size)
  for (key in unique(wanted)) {
    rows <- which(here == key & weights > 0)
    if (!length(rows)) next
    rows <- rows[order(table$frame[[of[1]]][rows])]
    at[wanted == key] <- rows[1 + findInterval(part[wanted == key], cumsum(weights[rows])[-length(rows)] / sum(weights[rows]))]
  }
  for (name in of) {
    world$codes[[name]] <- if (is_many(table, name)) rep(NA_integer_, world$size) else table$codes[at, name]
    world$values[[name]] <- table$frame[[name]][at]
  }
  world
}
