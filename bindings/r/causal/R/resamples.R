# Resamples of a table of counts, and the values of an effect over them. The library gives the values over the data; those over the
# resamples are computed by the tree of the same formula, where over the data it gives what the library gives, and else asked for one by
# one.

# Exposures, outcomes, what is given and pinned variables keep their levels; of the others there are those that the counts have.
whole_names <- function(effects) {
  c(names(effects$x[[1]]), names(effects$y[[1]]), names(effects$given[[1]]), names(effects$pinned))
}

# What gives the values of all cells over other counts: a row for each column of them, NA where some cell has no value.
values_over <- function(asked, table, effects) {
  by_tree <- values_by_tree(asked, table, effects)
  if (!is.null(by_tree)) {
    again <- by_tree(matrix(table$counts))[1, ]
    if (!anyNA(again) && all(abs(again - values_of(effects)) <= 1e-9)) return(by_tree)
  }
  values_by_library(asked, table, effects)
}

# What gives the factor of an effect, and how many combinations of levels its largest node has.
effect_factor <- function(asked) if (is.null(asked$split)) function(scope) trees_factor(asked$trees, scope) else function(scope) split_factor(asked, scope)

largest_of <- function(asked, sizes) {
  max(largest_node(asked$trees, sizes), if (!is.null(asked$split)) prod(sizes[c(asked$x, asked$given, asked$y, asked$formula$free)]))
}

# That of an effect among the treated by two levels: the joint effect less what was observed, over the share of those who had the other
# level; among those who had the very level, what was observed. Numbers of records stand in place of shares. As by the library, a table has
# all values or none, and none where one would be below 0. What is free stands at its first level.
split_factor <- function(asked, scope) {
  sizes <- scope$sizes
  joint <- trees_factor(asked$trees, scope)
  had <- unname(asked$observed)
  wide <- union(c(asked$x, asked$given, asked$y), joint$names)
  records <- function(names) scope$records(names)[rows_in(names, wide, sizes), , drop = FALSE]
  seen <- records(c(asked$x, setdiff(asked$given, had), asked$y))
  values <- sweep(widened(joint, wide, sizes), 2, scope$records(character())[1, ], "*") - seen
  is_same <- rows_in(asked$x, wide, sizes) == rows_in(had, wide, sizes)
  values[is_same, ] <- seen[is_same, ]
  values <- values / records(asked$given)
  first <- Reduce(`&`, lapply(asked$formula$free, function(name) rows_in(name, wide, sizes) == 1), rep(TRUE, nrow(values)))
  lacks <- colSums(!is.finite(values[first, , drop = FALSE]) | values[first, , drop = FALSE] < -1e-9) > 0
  values[, lacks] <- NaN
  new_factor(wide, pmax(values, 0))
}

# By the formula's tree; NULL where it is too large for arrays.
values_by_tree <- function(asked, table, effects) {
  sizes <- lengths(table$levels)
  largest <- largest_of(asked, sizes)
  if (largest > 2^20) return(NULL)
  factor <- effect_factor(asked)
  whole <- whole_names(effects)
  cells <- cell_codes(effects, table)
  function(counts) {
    counts <- as.matrix(counts)
    values <- matrix(NA_real_, ncol(counts), nrow(cells))
    room <- max(1, floor(2e6 / largest))
    for (first in seq(1, max(ncol(counts), 1), by = room)) {
      here <- seq(first, length.out = min(room, ncol(counts) - first + 1))
      if (!length(here)) next
      scope <- counts_scope(table$codes, sizes, counts[, here, drop = FALSE], whole, asked$zero)
      values[here, ] <- t(at_cells(factor(scope), cells, sizes))
    }
    values[rowSums(!is.finite(values)) > 0, ] <- NA
    values
  }
}

# The codes of all cells, with the first level of what is pinned.
cell_codes <- function(effects, table) {
  codes <- lapply(seq_along(effects$y), function(k) c(effects$x[[k]], effects$given[[k]], effects$y[[k]], effects$pinned))
  names <- names(codes[[1]])
  matrix(as.integer(unlist(codes)), length(codes), byrow = TRUE, dimnames = list(NULL, names))
}

# By the library, a table at a time.
values_by_library <- function(asked, table, effects) {
  whole <- whole_names(effects)
  words <- c(asked$words, "--count", count_name(table))
  cells <- cells_of(effects$out)
  one <- function(counts) {
    told <- ask_counts(asked$diagram, words, counts_text(table, counts, whole), hand_back = 5)
    if (told$status != 0) return(rep(NA_real_, length(effects$y)))
    if (!identical(cells_of(told$out), cells)) refuse("a resample has other cells than the data", kind = "internal")
    (bounds_in(told$out, "from") + bounds_in(told$out, "to")) / 2
  }
  function(counts) matrix(apply(as.matrix(counts), 2, one), ncol(as.matrix(counts)), byrow = TRUE)
}

# Their answers have the same cells in the same order. So only their bounds are read, and what stands around the bounds is compared.
cells_of <- function(out) gsub('"(from|to)":"[0-9.]+"', "", out)

bounds_in <- function(out, key) as.numeric(sub('".*', "", strsplit(out, paste0('"', key, '":"'), fixed = TRUE)[[1]][-1]))
