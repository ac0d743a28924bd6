# The value of a formula's tree over many tables of counts at once, or over models in place of counts: arithmetic in R, which is
# checked against the library's value where there is one. A factor has the names of its variables, and a matrix with a row for each
# combination of their levels (the first name runs fastest) and a column for each table. NaN stands where there is no value.

# `scope` has the `sizes` of the variables, the number of `tables`, `term`, which gives the factor of a term, `present`, a factor's
# values that say for one variable which levels a table has (or NULL where all count), and `zero`.
tree_factor <- function(tree, scope, behind = list()) {
  part <- function(it) tree_factor(it, scope, behind)
  if (!is.null(tree$definition)) return(behind[[tree$definition + 1]])
  if (!is.null(tree$term)) return(scope$term(texts(tree$term), texts(tree$given), texts(tree$do)))
  if (!is.null(tree$sum)) return(sum_factor(part(tree$of), texts(tree$sum), scope))
  if (!is.null(tree$quotient)) return(quotient_factor(part(tree$quotient[[1]]), part(tree$quotient[[2]]), scope))
  Reduce(function(a, b) product_factor(a, b, scope), lapply(tree$product, part), new_factor(character(), matrix(1, 1, scope$tables)))
}

# The factor of the last of some trees, of which each may cite those before it.
trees_factor <- function(trees, scope) {
  found <- list()
  for (tree in trees) found <- c(found, list(tree_factor(tree, scope, found)))
  found[[length(found)]]
}

new_factor <- function(names, values) list(names = names, values = values)

# Where each row of a table over `wide` names stands in one over some of them.
rows_in <- function(names, wide, sizes) {
  at <- rep(1, prod(sizes[wide]))
  grid_step <- 1
  for (name in names) {
    before <- prod(sizes[wide[seq_len(match(name, wide) - 1)]])
    code <- (seq_along(at) - 1) %/% before %% sizes[[name]]
    at <- at + code * grid_step
    grid_step <- grid_step * sizes[[name]]
  }
  at
}

widened <- function(factor, wide, sizes) {
  if (identical(factor$names, wide)) factor$values else factor$values[rows_in(factor$names, wide, sizes), , drop = FALSE]
}

product_factor <- function(a, b, scope) {
  wide <- union(a$names, b$names)
  a <- widened(a, wide, scope$sizes)
  b <- widened(b, wide, scope$sizes)
  values <- a * b
  if (scope$zero && anyNA(values)) values[is.na(values) & (a %in% 0 | b %in% 0)] <- 0
  new_factor(wide, values)
}

quotient_factor <- function(a, b, scope) {
  wide <- union(a$names, b$names)
  values <- widened(a, wide, scope$sizes) / widened(b, wide, scope$sizes)
  values[!is.finite(values)] <- NaN
  new_factor(wide, values)
}

sum_factor <- function(factor, over, scope) {
  idle <- setdiff(over, factor$names)
  for (name in intersect(over, factor$names)) {
    present <- scope$present(name)
    if (!is.null(present)) factor$values[!present[rows_in(name, factor$names, scope$sizes), , drop = FALSE]] <- 0
    rest <- setdiff(factor$names, name)
    rows <- rows_in(rest, factor$names, scope$sizes)
    factor <- new_factor(rest, rowsum(factor$values, rows, reorder = TRUE))
  }
  # a variable on which nothing depends is summed over its levels as often
  for (name in idle) {
    present <- scope$present(name)
    times <- if (is.null(present)) rep(scope$sizes[[name]], scope$tables) else colSums(present)
    factor$values <- sweep(factor$values, 2, times, "*")
  }
  factor
}

# How many levels' combinations the largest node of a tree has.
largest_node <- function(trees, sizes) {
  found <- 1
  behind <- list()
  walk <- function(tree) {
    here <- if (!is.null(tree$definition)) behind[[tree$definition + 1]]
            else if (!is.null(tree$term)) union(texts(tree$given), texts(tree$term))
            else unique(unlist(lapply(c(if (!is.null(tree$of)) list(tree$of), tree$product, tree$quotient), walk)))
    found <<- max(found, prod(sizes[here]))
    setdiff(here, texts(tree$sum))
  }
  for (tree in trees) behind <- c(behind, list(walk(tree)))
  found
}

# The rows of a factor at some cells, which give each of its names a code.
at_cells <- function(factor, codes, sizes) {
  at <- rep(1, nrow(codes))
  grid_step <- 1
  for (name in factor$names) {
    at <- at + (codes[, name] - 1) * grid_step
    grid_step <- grid_step * sizes[[name]]
  }
  factor$values[at, , drop = FALSE]
}

# What the terms of a formula are over tables of counts: a matrix with a row for each row of the codes and a column for each table.
counts_scope <- function(codes, sizes, counts, whole, zero) {
  margin <- function(names) {
    values <- matrix(0, prod(sizes[names]), ncol(counts))
    if (!length(names)) return(matrix(colSums(counts), 1))
    key <- rep(1, nrow(codes))
    grid_step <- 1
    for (name in names) {
      key <- key + (codes[, name] - 1) * grid_step
      grid_step <- grid_step * sizes[[name]]
    }
    sums <- rowsum(counts, key, reorder = FALSE)
    values[unique(key), ] <- sums
    values
  }
  list(sizes = sizes, tables = ncol(counts), zero = zero, records = margin,
       term = function(of, given, do) {
         names <- c(given, setdiff(of, given))
         below <- margin(given)
         values <- margin(names) / below[rows_in(given, names, sizes), , drop = FALSE]
         new_factor(names, values)
       },
       present = function(name) if (!name %in% whole) margin(name) > 0)
}
