# An effect over the strata that occur, where all combinations of a set's levels are more than a formula reads. A sum over a set of
# P(set) P(y | x, set) has a product with a factor 0 for each stratum without a record. With the rule that such a product is 0 it is the
# same sum over the strata that have one, which are the levels of one variable here: the library evaluates that variable's formula.

# The question and its table, or where the table is too wide the same over the strata that occur.
narrowed <- function(asked, table) {
  members <- if (prod(lengths(table$levels)) > 2^20 && asked$zero && !length(asked$given)) summed_set(asked)
  if (is.null(members)) return(list(asked = asked, table = table))
  name <- utils::tail(make.unique(c(table$names, "stratum")), 1)
  found <- strata_table(table, members, name, c(asked$x, asked$y))
  edges <- rbind(data.frame(from = name, to = c(asked$x, asked$y)), expand.grid(from = asked$x, to = asked$y, stringsAsFactors = FALSE))
  inner <- asked_of(as_causal_diagram(edges), asked$x, asked$y, set = name, zero = TRUE)
  inner$typed <- asked$typed
  inner$outer <- c(asked, list(is_wide = TRUE))
  list(asked = inner, table = found)
}

# A fault over the strata that occur, as one of the formula that was asked for: at the levels of its set, and at its node.
fault_of_set <- function(fault, table, asked) {
  if (is.null(fault$cell)) return(fault)
  name <- table$names[1]
  levels <- lapply(table$members, `[`, match(fault$cell[[name]], table$levels[[1]]))
  fault$cell <- c(levels, fault$cell[names(fault$cell) != name])
  nodes <- divisors_of(asked$trees)
  is_outcome <- vapply(nodes[[length(nodes)]], function(node) !is.null(node$term) && all(names(levels) %in% node$names), NA)
  fault$node <- which(is_outcome)[1] - 1L
  fault
}

# The set that a formula sums over, in the form above: those of its members that the outcome is given; NULL where it has another form.
summed_set <- function(asked) {
  tree <- asked$trees[[length(asked$trees)]]
  over <- texts(tree$sum)
  parts <- tree$of$product
  if (length(asked$trees) > 1 || !length(over) || length(parts) != 2 || any(vapply(parts, function(part) is.null(part$term), NA))) return(NULL)
  is_outcome <- vapply(parts, function(part) setequal(texts(part$term), asked$y), NA)
  if (sum(is_outcome) != 1) return(NULL)
  weights <- parts[[which(!is_outcome)]]
  given <- texts(parts[[which(is_outcome)]]$given)
  if (!setequal(texts(weights$term), over) || length(weights$given) || !all(given %in% c(over, asked$x))) return(NULL)
  intersect(given, over)
}

strata_table <- function(table, members, name, others) {
  key <- row_keys(lapply(members, function(it) table$codes[, it]), lengths(table$levels[members]))
  first <- !duplicated(key)
  table$members <- lapply(stats::setNames(members, members), function(it) level_labels(table$levels[[it]])[table$codes[first, it]])
  labels <- do.call(paste, c(lapply(members, function(it) paste0(it, "=", table$members[[it]])), list(sep = ",")))
  table$codes <- cbind(matrix(as.integer(key), dimnames = list(NULL, name)), table$codes[, others, drop = FALSE])
  table$strata <- paste0("over the ", length(labels), " strata of ", paste(members, collapse = ", "), " that occur, of ",
                         format(prod(lengths(table$levels[members])), big.mark = ",", scientific = FALSE), " combinations")
  table$levels <- c(stats::setNames(list(labels), name), table$levels[others])
  table$names <- names(table$levels)
  table$rows <- do.call(paste, c(lapply(table$names, function(it) table$codes[, it]), list(sep = ",")))
  table$source <- NULL
  table
}
