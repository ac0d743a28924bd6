# Estimates by a formula's tree: each term is a product of models, each of one variable by what the term is given and the variables before
# it. It is summed over the levels, or by simulation (see simulated.R).

formula_estimator <- function(asked, table, arms, targets, options) {
  sizes <- lengths(table$levels)
  in_conditions <- unlist(lapply(asked$trees, summed_or_given))
  if (targets$mean && asked$y %in% in_conditions) refuse("the formula isn't linear in ", asked$y, ", so that there is no mean by models; cut it to classes")
  if (targets$mean) sizes[[asked$y]] <- 1
  drawn <- drawn_names(asked, table, sizes)
  scope <- list(asked = asked, table = table, sizes = sizes, targets = targets, options = options, drawn = drawn)
  scope$models <- term_models(scope)
  check_modelled(options$models, vapply(scope$models, `[[`, "", "name"))
  conditions <- condition_cells(asked, table)
  fixed <- c(stats::setNames(rep(1L, length(asked$formula$free)), asked$formula$free), codes_among(asked, table))
  codes <- if (targets$mean) 1L else targets$codes
  cells_of <- function(arm) {
    cells <- lapply(codes, function(code) {
      here <- do.call(cbind, c(lapply(arm, function(k) rep(k, nrow(conditions))), as.list(fixed)))
      here <- cbind(here, conditions, matrix(code, nrow(conditions), 1))
      structure(here, dimnames = list(NULL, c(names(arm), names(fixed), colnames(conditions), asked$y)))
    })
    do.call(rbind, cells)
  }
  cells <- lapply(arms, cells_of)
  answer <- function(weights) {
    fits <- lapply(scope$models, function(model) model$fit(if (is.null(table$source_of)) weights else weights * (table$source_of == model$source)))
    values <- if (length(drawn)) simulated_values(scope, fits, weights, cells)
              else lapply(summed_values(scope, lapply(predicted_tables(scope, fits), `[[`, "values"), cells), function(values) values[, 1])
    list(values = values, fits = fits)
  }
  has_moves <- function(point) !length(drawn) && all(vapply(point$fits, function(fit) is.function(fit$moves), NA)) && predicted_size(scope) <= 4000
  list(answer = answer, models = scope$models, conditions = conditions, has_moves = has_moves, drawn = drawn,
       moves = function(weights, point) tree_moves(scope, point$fits, weights, cells))
}

# The rows at which a model is asked: each combination of levels of what it is given.
rows_of_step <- function(model, scope) {
  grid <- as.matrix(expand.grid(lapply(scope$sizes[model$order], seq_len)))
  if (!length(model$order)) grid <- matrix(0L, 1, 0)
  colnames(grid) <- model$order
  if (isTRUE(model$by_codes)) model$rows(grid) else model$rows(model_rows(scope$table, grid))
}

# What each model says there: a column for each level, or one for a mean.
predicted_tables <- function(scope, fits) {
  keys <- names(scope$models)
  lapply(stats::setNames(keys, keys), function(key) {
    rows <- rows_of_step(scope$models[[key]], scope)
    list(rows = rows, values = fits[[key]]$predict(rows))
  })
}

# How many numbers these are at most.
predicted_size <- function(scope) sum(vapply(scope$models, function(model) prod(scope$sizes[c(model$order, model$name)]), 0))

# The values of both arms by the arithmetic of tables, a column for each of `columns` tables. `values` are what the models say, each a
# matrix of one table, or a row for each number of it and a column for each table.
summed_values <- function(scope, values, cells, columns = 1) {
  evaluator <- list(sizes = scope$sizes, tables = columns, zero = TRUE, present = function(name) NULL,
                    term = function(of, given, do) term_by_models(of, given, do, scope, values, columns))
  factor <- trees_factor(scope$asked$trees, evaluator)
  lapply(cells, function(cells) at_cells(factor, cells, scope$sizes))
}

# How the value of each arm moves with the weight of each row, times the sum of the weights: by what each model says at each combination of
# levels, which is changed a little, all at once, and by how that moves with the model's coefficients, and these with the weights.
tree_moves <- function(scope, fits, weights, cells) {
  predicted <- predicted_tables(scope, fits)
  found <- lapply(cells, function(cells) matrix(0, length(weights), nrow(cells)))
  for (key in names(predicted)) {
    slopes <- slopes_at(scope, lapply(predicted, `[[`, "values"), key, cells)
    moved <- fits[[key]]$moves()
    if (!is.null(scope$table$source_of)) moved <- moved * (scope$table$source_of == scope$models[[key]]$source)
    for (arm in names(cells)) for (cell in seq_len(ncol(found[[arm]]))) {
      own <- matrix(slopes[[arm]][cell, ], nrow(predicted[[key]]$values))
      slope <- Reduce(`+`, lapply(seq_len(ncol(own)), function(k) fits[[key]]$slope(predicted[[key]]$rows, own[, k], k)))
      found[[arm]][, cell] <- found[[arm]][, cell] + sum(weights) * drop(moved %*% slope)
    }
  }
  found
}

# How the values of both arms move with each number that one model says.
slopes_at <- function(scope, values, key, cells) {
  numbers <- as.vector(values[[key]])
  step <- 1e-5
  room <- max(1, floor(1e6 / largest_node(scope$asked$trees, scope$sizes)))
  blocks <- split(seq_along(numbers), (seq_along(numbers) - 1) %/% room)
  parts <- lapply(blocks, function(block) {
    changed <- function(by) {
      own <- matrix(numbers, length(numbers), length(block))
      own[cbind(block, seq_along(block))] <- numbers[block] + by
      summed_values(scope, replace(values, key, list(own)), cells, length(block))
    }
    Map(function(above, below) (above - below) / (2 * step), changed(step), changed(-step))
  })
  lapply(stats::setNames(names(cells), names(cells)), function(arm) do.call(cbind, lapply(parts, `[[`, arm)))
}

# The models of all terms, by their keys. What is drawn has its own.
term_models <- function(scope) {
  models <- list()
  for (term in unlist(lapply(scope$asked$trees, terms_of), recursive = FALSE)) {
    if (any(term$of %in% scope$drawn)) {
      maker <- new_maker(term, scope)
      models[names(maker)] <- maker
      next
    }
    for (step in steps_of(term, scope)) if (is.null(models[[step$key]])) models[[step$key]] <- step_model(step, scope)
  }
  models
}

step_model <- function(step, scope) {
  is_mean <- scope$targets$mean && step$name == scope$asked$y
  plain <- step$by_records && !step$name %in% names(scope$options$models)
  model <- new_model(step$name, step$given, scope$table, if (plain) list("table") else models_of(step, scope), if (plain) 0 else scope$options$smoothing, is_mean,
                     scope$options$factors)
  c(model, list(order = step$given, source = step$source))
}

# The models that were asked for. In a formula an exposure has its own name, also where the term has its second one.
models_of <- function(step, scope) {
  second <- scope$asked$second
  own <- second[second %in% step$given & !names(second) %in% step$given]
  if (!length(own)) return(scope$options$models)
  lapply(scope$options$models, function(model) {
    if (inherits(model, "formula")) stats::as.formula(do.call(substitute, list(model, lapply(own, as.name))), environment(model)) else model
  })
}

# The terms of a tree, each with its variables, what it is given, and which experiment it is of (0 for none).
terms_of <- function(tree) {
  if (is.null(tree$term)) return(unlist(lapply(inner_trees(tree), terms_of), recursive = FALSE))
  list(list(of = texts(tree$term), given = texts(tree$given), do = texts(tree$do)))
}

# The variables of a term one after the other, the outcome last, each given those before it. What an experiment sets is given too.
steps_of <- function(term, scope) {
  given <- union(term$do, term$given)
  names <- setdiff(c(setdiff(term$of, scope$asked$y), intersect(term$of, scope$asked$y)), given)
  source <- source_of(term$do, scope$asked)
  # a term without a condition, or of those who had a level, is read off the records
  by_records <- !length(setdiff(given, scope$asked$observed))
  steps <- list()
  for (name in names) {
    key <- paste(c(source, by_records, name, sort(given)), collapse = "\r")
    steps <- c(steps, list(list(name = name, given = given, key = key, source = source, by_records = by_records)))
    given <- c(given, name)
  }
  steps
}

# Which experiment a term is of; 0 for observation.
source_of <- function(do, asked) {
  if (!length(do)) return(0L)
  found <- which(vapply(asked$experiments, setequal, NA, do))
  if (!length(found)) refuse("the formula reads an experiment on ", paste(do, collapse = ", "), ", whose data aren't given", kind = "internal")
  found[1]
}

# The levels that the treated had.
codes_among <- function(asked, table) {
  if (is.null(asked$among)) return(integer())
  told <- if (is.null(names(asked$among))) stats::setNames(as.list(asked$among), order_of_arm(asked$among, asked, asked$x)) else as.list(asked$among)
  if (!setequal(names(told), asked$x)) refuse("`observed` has one level of each of ", paste(asked$x, collapse = ", "))
  stats::setNames(vapply(asked$x, function(name) known_place(name, told[[name]], table), 1L), unname(asked$observed[asked$x]))
}

known_place <- function(name, level, table) {
  place <- place_of_level(table$levels[[name]], level)
  if (is.na(place)) no_level(name, as.character(level), level_labels(table$levels[[name]]))
  place
}

# The levels of the condition that are wanted: each combination that has a record.
condition_cells <- function(asked, table) {
  cells <- unique(table$codes[table$counts > 0, asked$given, drop = FALSE])
  if (!length(asked$given)) cells <- matrix(0L, 1, 0)
  for (name in names(asked$levels)) cells <- cells[cells[, name] == known_place(name, asked$levels[[name]], table), , drop = FALSE]
  cells[order_of_codes(cells, table), , drop = FALSE]
}

# The names that a tree sums over, or gives.
summed_or_given <- function(tree) c(texts(tree$sum), texts(tree$given), unlist(lapply(inner_trees(tree), summed_or_given)))

term_by_models <- function(of, given, do, scope, values, columns) {
  product <- new_factor(character(), matrix(1, 1, columns))
  arithmetic <- list(sizes = scope$sizes, zero = TRUE)
  for (step in steps_of(list(of = of, given = given, do = do), scope)) {
    wide <- scope$models[[step$key]]$order
    is_mean <- scope$targets$mean && step$name == scope$asked$y
    own <- as.vector(values[[step$key]])
    rows <- prod(scope$sizes[if (is_mean) wide else c(wide, step$name)])
    product <- product_factor(product, new_factor(if (is_mean) wide else c(wide, step$name), matrix(own, rows, columns)), arithmetic)
  }
  product
}

# The records of an observational study and of trials, one below the other: each term is fitted over its own. What a study lacks is the
# first level, and is never read.
table_of_trials <- function(asked, data, trials, count, missing, design) {
  if (!is.null(design)) refuse("weights, clusters and strata aren't there for several studies")
  if (is.data.frame(trials)) trials <- list(trials)
  if (length(trials) != length(asked$experiments)) refuse("`trials` has the data of each of the `experiments`, in their order: ", length(asked$experiments), " are wanted")
  terms <- unlist(lapply(asked$trees, terms_of), recursive = FALSE)
  sources <- vapply(terms, function(term) source_of(term$do, asked), 1L)
  tables <- lapply(sort(unique(sources)), function(source) {
    names <- unique(unlist(terms[sources == source]))
    found <- count_table(asked$diagram, character(), if (source == 0) data else trials[[source]], count, missing, keeps = asked$y, of = names)
    c(found, list(source = source))
  })
  stacked(tables)
}

stacked <- function(tables) {
  names <- unique(unlist(lapply(tables, `[[`, "names")))
  levels <- lapply(stats::setNames(names, names), function(name) joined_levels(Filter(length, lapply(tables, function(it) it$levels[[name]]))))
  codes <- lapply(tables, function(it) {
    found <- matrix(1L, nrow(it$codes), length(names), dimnames = list(NULL, names))
    for (name in it$names) found[, name] <- match(level_labels(it$levels[[name]]), level_labels(levels[[name]]))[it$codes[, name]]
    found
  })
  part <- function(name) unlist(lapply(tables, `[[`, name))
  list(names = names, levels = levels, codes = do.call(rbind, codes), counts = part("counts"), records = part("records"), dropped = sum(part("dropped")),
       source_of = rep(vapply(tables, `[[`, 1L, "source"), vapply(codes, nrow, 1L)))
}

# The levels of several columns of one name.
joined_levels <- function(parts) {
  if (length(parts) == 1) return(parts[[1]])
  if (any(vapply(parts, is.factor, NA))) return({ all <- unique(unlist(lapply(parts, as.character))); factor(all, all) })
  levels_of(do.call(c, parts))
}
