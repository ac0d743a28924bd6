# Drawings of the package ggplot2, for its generic `autoplot`; it isn't needed, see registered.R. What is drawn is what `plot` draws of
# a diagram, and what `tidy` says of intervals.

autoplot_methods <- list(
  causal_diagram = function(object, path = NULL, hedge = NULL, layout = NULL, ...) diagram_drawing(object, path, hedge, layout),
  causal_separation = function(object, ...) diagram_drawing(project(object$diagram), path = object$path, ...),
  causal_rule = function(object, ...) diagram_drawing(project(object$diagram), path = object$path, ...),
  causal_adjustment = function(object, ...) diagram_drawing(project(object$diagram), path = object$path, ...),
  causal_hedge = function(object, ...) diagram_drawing(project(object$diagram), hedge = object, ...),
  causal_stopped = function(object, ...) diagram_drawing(project(object$diagram), hedge = object, ...),
  causal_formula = function(object, ...) diagram_drawing(project(object$diagram), ...),
  causal_contrast = function(object, measure = c("difference", "ratio", "odds_ratio", "risk_treated", "risk_control"), term = NULL, ...) {
    if (!is.null(term)) { old_word("term", "measure"); measure <- term }
    forest_drawing(object, one_of(measure))
  },
  causal_estimate = function(object, measure = c("difference", "ratio", "odds_ratio", "risk_treated", "risk_control", "mean"), ...) {
    has <- intersect(eval(formals()$measure), object[["measure"]])
    forest_drawing(object, match.arg(measure, if (length(has)) has else "difference"))
  },
  causal_comparison = function(object, ...) forest_drawing(object, "difference"),
  causal_tests = function(object, ...) {
    known <- shown_tests(object)
    pairs <- paste0(known$a, " from ", known$b, " given ", known$given)
    tidied <- list(estimate = known$rmsea, conf_low = known$rmsea_low, conf_high = known$rmsea_high)
    interval_drawing(frame_of(tidied), "RMSEA, with its 95% interval", 0, NULL, pairs)
  },
  causal_means = function(object, measure = c("mean", "difference"), ...) {
    measure <- one_of(measure)
    shown <- as.data.frame(object)[object[["measure"]] == measure, ]
    levels <- seq_len(match("control", names(shown)) - 1)
    interval_drawing(shown, paste(measure, "of", attr(object, "outcome")), if (measure == "difference") 0, NULL, cell_texts(shown, levels))
  }
)

# A forest plot: a line for each cell and arm, with the interval of one measure, and what notes say of it.
forest_drawing <- function(object, measure) {
  shown <- as.data.frame(object)[object[["measure"]] == measure, ]
  levels <- seq_len(match("treated", names(shown)) - 1)
  arms <- paste(shown$treated, "against", shown$control)
  cells <- if (length(levels)) cell_texts(shown, levels) else rep("", nrow(shown))
  if (length(unique(arms)) > 1 || anyDuplicated(cells)) cells <- paste0(cells, ifelse(nzchar(cells), ": ", ""), arms)
  if (!is.null(shown$method) && anyDuplicated(cells)) cells <- paste0(cells, " (", shown$method, ")")
  caption <- c(if (length(unique(arms)) == 1) arms[1], row_notes(shown))
  none <- switch(measure, difference = 0, ratio = 1, odds_ratio = 1)
  interval_drawing(shown, measure, none, if (length(caption)) paste(caption, collapse = "\n"), cells)
}

# Columns of a data frame, of any names, as what is drawn.
mapped <- function(...) do.call(ggplot2::aes, lapply(list(...), as.name))

# A point for each cell with its interval. A line shows where nothing differs.
interval_drawing <- function(shown, label, none, caption, cells) {
  drawn <- frame_of(list(cell = factor(cells, rev(unique(cells))), estimate = shown$estimate, low = shown$conf_low, high = shown$conf_high))
  ggplot2::ggplot(drawn[!is.na(drawn$estimate), ], mapped(x = "estimate", y = "cell")) +
    (if (!is.null(none)) ggplot2::geom_vline(xintercept = none, linetype = "dashed", colour = "#888888")) +
    ggplot2::geom_linerange(mapped(xmin = "low", xmax = "high"), na.rm = TRUE) +
    ggplot2::geom_point(size = 2) +
    ggplot2::labs(x = label, y = NULL, caption = caption)
}

cell_texts <- function(shown, levels) {
  vapply(seq_len(nrow(shown)), function(row) level_text(lapply(as.list(shown)[levels], `[`, row)), "")
}

diagram_drawing <- function(diagram, path = NULL, hedge = NULL, layout = NULL) {
  places <- places_of(diagram, layout)
  roles <- ifelse(is.na(diagram$vertices$role) | diagram$vertices$role == "", "none", diagram$vertices$role)
  vertices <- frame_of(list(name = diagram$vertices$name, role = factor(roles, names(role_colours)), x = places[, 1], y = places[, 2],
                            colour = drawn_colours(diagram$vertices$name %in% c(path$vertices, hedge$big))))
  shown <- setdiff(roles, "none")
  ggplot2::ggplot(vertices, mapped(x = "x", y = "y")) +
    edge_layers(diagram, places, marked_edges(diagram, path, hedge)) +
    ggplot2::geom_label(mapped(label = "name", fill = "role", colour = "colour"), label.padding = ggplot2::unit(0.35, "lines"), key_glyph = "rect") +
    ggplot2::scale_fill_manual(values = role_colours, breaks = shown, name = NULL, guide = if (length(shown)) "legend" else "none") +
    ggplot2::scale_colour_identity() +
    ggplot2::scale_x_continuous(expand = ggplot2::expansion(mult = 0.15, add = 0.1)) +
    ggplot2::scale_y_continuous(expand = ggplot2::expansion(mult = 0.15, add = 0.3)) +
    ggplot2::theme_void()
}

drawn_colours <- function(is_marked) ifelse(is_marked, "#c0392b", "#333333")

# A layer for each edge, bent as `plot` bends it.
edge_layers <- function(diagram, places, is_marked) {
  edges <- diagram$edges
  sizes <- guessed_sizes(rownames(places))
  bends <- bends_of(edges, places, sizes)
  lapply(seq_len(nrow(edges)), function(k) {
    ends <- match(c(edges$from[k], edges$to[k]), rownames(places))
    points <- curve_between(places[ends[1], ], places[ends[2], ], bends[k])
    hidden <- inside(points, places[ends[1], ], sizes[ends[1], ]) | inside(points, places[ends[2], ], sizes[ends[2], ])
    is_directed <- edges$edge[k] == "->"
    head <- ggplot2::arrow(length = ggplot2::unit(0.09, "inches"), angle = 22, ends = if (is_directed) "last" else "both", type = "closed")
    rows <- frame_of(list(x = points[!hidden, 1], y = points[!hidden, 2], colour = rep(drawn_colours(is_marked[k]), sum(!hidden))))
    ggplot2::geom_path(mapped(x = "x", y = "y", colour = "colour"), rows, linetype = if (is_directed) "solid" else "dashed", arrow = head, inherit.aes = FALSE)
  })
}

# Half the extent of each name, as a part of the space between two columns; the size of the paper isn't known.
guessed_sizes <- function(names) cbind(pmin(0.12 + 0.02 * nchar(names), 0.4), rep(0.2, length(names)))
