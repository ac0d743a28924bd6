# Drawings with base graphics. Where a vertex stands is a matter of the drawing alone.

role_colours <- c(exposure = "#b7e1a1", outcome = "#a9cdf5", adjusted = "#f3dfa0", latent = "#d9d9d9", none = "white")

plot.causal_diagram <- function(x, path = NULL, hedge = NULL, layout = NULL, legend = TRUE, set = NULL, ...) {
  if (length(set)) x$vertices$role[x$vertices$name %in% known_vertices(x, set)] <- "adjusted"
  places <- places_of(x, layout)
  roles <- ifelse(is.na(x$vertices$role) | x$vertices$role == "", "none", x$vertices$role)
  graphics::plot.new()
  # all that is drawn is measured in inches
  room <- graphics::par("pin")
  graphics::plot.window(c(0, room[1]), c(0, room[2]), xaxs = "i", yaxs = "i")
  sizes <- half_inches(x$vertices$name)
  bends <- bends_of(x$edges, on_paper(places, sizes, room), sizes)
  at <- on_paper(places, sizes, room, x$edges, bends)
  marked <- marked_edges(x, path, hedge)
  for (k in seq_len(nrow(x$edges))) draw_edge(x$edges[k, ], at, sizes, bends[k], marked[k])
  draw_vertices(at, sizes, role_colours[roles], x$vertices$name %in% c(path$vertices, hedge$big))
  shown <- setdiff(unique(roles), "none")
  if (isTRUE(legend) && length(shown)) {
    graphics::legend(free_corner(at, room), legend = shown, fill = role_colours[shown], bty = "n", cex = 0.8)
  }
  graphics::title(...)
  invisible(places)
}

# The observed graph with the open path, if there is one.
plot.causal_separation <- function(x, ...) plot(project(x$diagram), path = x$path, ...)

plot.causal_rule <- function(x, ...) plot(project(x$diagram), path = x$path, ...)

plot.causal_adjustment <- function(x, ...) plot(project(x$diagram), path = x$path, set = x$set, ...)

# The observed graph with one of the sets.
plot.causal_sets <- function(x, which = 1, ...) {
  if (!length(x$sets)) refuse("no set can be adjusted for, so that none can be drawn")
  if (!which %in% seq_along(x$sets)) refuse("`which` is the number of a set, from 1 to ", length(x$sets))
  plot(project(x$diagram), set = x$sets[[which]], ...)
}

# The observed graph with the vertices of the hedge, its choices and its links.
plot.causal_hedge <- function(x, ...) plot(project(x$diagram), hedge = x, ...)

plot.causal_stopped <- plot.causal_hedge

plot.causal_formula <- function(x, ...) plot(project(x$diagram), ...)

# The places in inches, so that all names are within the paper, and all edges, where their bends are known.
on_paper <- function(places, sizes, room, edges = NULL, bends = NULL) {
  at <- scaled(places, sizes, room, places, sizes)
  # how far a curve bends depends on the scale, and the scale on the curves
  for (round in seq_len(6 * (length(bends) > 0))) {
    points <- do.call(rbind, lapply(seq_along(bends), function(k) {
      ends <- match(c(edges$from[k], edges$to[k]), rownames(places))
      curve_between(at[ends[1], ], at[ends[2], ], bends[k])[seq(20, steps_of_curve - 20, 20), ]
    }))
    points <- sweep(sweep(points, 2, attr(at, "steps"), "/"), 2, attr(at, "low"), "+")
    at <- scaled(places, sizes, room, rbind(places, points), rbind(sizes, points * 0))
  }
  at
}

# The places in inches, on paper of this size on which what is held has room; with the first place of the paper and the inches of a step.
scaled <- function(places, sizes, room, held, halves) {
  sides <- lapply(1:2, function(side) {
    # places in a row stay in the middle
    flat <- nrow(places) > 0 && diff(range(places[, side])) < 1e-9
    if (flat) room_for(places[, side], halves, room[side]) else room_for(held[, side], halves[, side], room[side])
  })
  low <- vapply(sides, `[`, 0, 1)
  steps <- room / vapply(sides, diff, 0)
  structure(sweep(sweep(places, 2, low), 2, steps, "*"), low = low, steps = steps)
}

# Limits of an axis of this size, within which what stands at the places has room, each with half its extent; these and the size are
# in inches.
room_for <- function(places, halves, size, margin = 0.1) {
  if (!length(places)) return(c(-1, 1))
  if (diff(range(places)) < 1e-9) return(places[1] + c(-1, 1))
  halves <- halves + margin
  needed <- function(scale) max(scale * places + halves) - min(scale * places - halves)
  # where the names are too wide, they stand as far apart as they can
  most <- size / diff(range(places))
  scale <- if (needed(0) < size) stats::uniroot(function(scale) needed(scale) - size, c(0, most), tol = 1e-9)$root else 0.2 * most
  low <- min(places - halves / scale)
  c(low, low + size / scale)
}

# The corner that is farthest from all names.
free_corner <- function(at, room) {
  corners <- rbind(topright = room, topleft = c(0, room[2]), bottomright = c(room[1], 0), bottomleft = c(0, 0))
  apart <- apply(corners, 1, function(corner) min(sqrt((at[, 1] - corner[1])^2 + (at[, 2] - corner[2])^2)))
  rownames(corners)[which.max(apart)]
}

given_places <- function(diagram, layout) {
  layout <- as.matrix(layout)
  at <- match(diagram$vertices$name, rownames(layout))
  if (ncol(layout) != 2 || anyNA(at)) refuse("`layout` has a row with two numbers for each vertex, named by it")
  places <- layout[at, , drop = FALSE]
  rownames(places) <- diagram$vertices$name
  places
}

# A vertex stands one column to the right of its farthest parent; in a column, by the mean height of its parents.
layered_places <- function(diagram) {
  names <- diagram$vertices$name
  directed <- diagram$edges[diagram$edges$edge == "->", ]
  column <- stats::setNames(numeric(length(names)), names)
  for (round in seq_along(names)) {
    for (k in seq_len(nrow(directed))) {
      column[directed$to[k]] <- max(column[directed$to[k]], column[directed$from[k]] + 1)
    }
  }
  height <- stats::setNames(numeric(length(names)), names)
  for (at in sort(unique(column))) {
    here <- names[column == at]
    wanted <- vapply(here, function(name) mean(c(height[directed$from[directed$to == name]], 0)), 0)
    spread <- (length(here) - 1) / 2 - (rank(-wanted, ties.method = "first") - 1)
    height[here] <- spread + if (at %% 2 == 1) 0.15 else 0
  }
  cbind(x = column, y = height)
}

# Half the width and half the height of each vertex, in inches.
half_inches <- function(names) {
  if (!length(names)) return(matrix(0, 0, 2))
  high <- graphics::strheight("Ag", units = "inches")
  cbind(pmax(graphics::strwidth(names, units = "inches") * 0.65, high) + high * 0.3, high)
}

# Which edges lie on the path, or are choices or links of the hedge.
marked_edges <- function(diagram, path, hedge) {
  edges <- diagram$edges
  ends <- paste(edges$from, edges$edge, edges$to, sep = "\r")
  wanted <- character()
  if (!is.null(path)) wanted <- edges_of_path(path)
  if (!is.null(hedge$links)) {
    links <- c(paste(hedge$links$from, "<->", hedge$links$to, sep = "\r"), paste(hedge$links$to, "<->", hedge$links$from, sep = "\r"))
    wanted <- c(wanted, paste(hedge$choice$from, "->", hedge$choice$to, sep = "\r"), links)
  }
  ends %in% wanted
}

edges_of_path <- function(path) {
  left <- path$vertices[-length(path$vertices)]
  right <- path$vertices[-1]
  back <- path$marks == "<-"
  both <- paste(right, path$marks, left, sep = "\r")[path$marks == "<->"]
  c(paste(ifelse(back, right, left), ifelse(back, "->", path$marks), ifelse(back, left, right), sep = "\r"), both)
}

draw_edge <- function(edge, places, sizes, bend, is_marked) {
  ends <- match(c(edge$from, edge$to), rownames(places))
  points <- curve_between(places[ends[1], ], places[ends[2], ], bend)
  points <- points[!inside(points, places[ends[1], ], sizes[ends[1], ]) & !inside(points, places[ends[2], ], sizes[ends[2], ]), , drop = FALSE]
  last <- nrow(points)
  if (last < 2) return(invisible())
  is_dashed <- edge$edge == "<->"
  colour <- if (is_marked) "#c0392b" else "#333333"
  width <- if (is_marked) 2.4 else 1.2
  graphics::lines(points, lty = if (is_dashed) 2 else 1, col = colour, lwd = width)
  draw_head(points[last - 1, ], points[last, ], colour, width)
  if (is_dashed) draw_head(points[2, ], points[1, ], colour, width)
  invisible(points)
}

draw_head <- function(from, to, colour, width) {
  graphics::arrows(from[1], from[2], to[1], to[2], length = 0.09, angle = 22, col = colour, lwd = width)
}

# How far an edge may bend, in turn, as a part of its length.
straight <- c(0, 0.1, -0.1, 0.2, -0.2, 0.35, -0.35, 0.5, -0.5, 0.7, -0.7)
bent <- c(0.24, -0.24, 0.38, -0.38, 0.55, -0.55, 0.75, -0.75)

# The bend of each edge.
bends_of <- function(edges, places, sizes) {
  vapply(seq_len(nrow(edges)), function(k) {
    bend_round(match(c(edges$from[k], edges$to[k]), rownames(places)), places, sizes, if (edges$edge[k] == "<->") bent else straight)
  }, 0)
}

# The first bend with which the edge runs behind no other vertex, or else behind the least.
bend_round <- function(ends, places, sizes, bends) {
  others <- seq_len(nrow(places))[-ends]
  hidden <- vapply(bends, function(bend) {
    points <- curve_between(places[ends[1], ], places[ends[2], ], bend)
    sum(vapply(others, function(other) sum(inside(points, places[other, ], 1.15 * sizes[other, ])), 0))
  }, 0)
  bends[which.min(hidden)]
}

steps_of_curve <- 400

curve_between <- function(from, to, bend) {
  middle <- (from + to) / 2 + bend * c(from[2] - to[2], to[1] - from[1])
  t <- seq(0, 1, length.out = steps_of_curve)
  cbind((1 - t)^2 * from[1] + 2 * t * (1 - t) * middle[1] + t^2 * to[1], (1 - t)^2 * from[2] + 2 * t * (1 - t) * middle[2] + t^2 * to[2])
}

inside <- function(points, centre, size) ((points[, 1] - centre[1]) / size[1])^2 + ((points[, 2] - centre[2]) / size[2])^2 < 1

draw_vertices <- function(places, sizes, colours, is_marked) {
  turn <- seq(0, 2 * pi, length.out = 60)
  for (k in seq_len(nrow(places))) {
    graphics::polygon(places[k, 1] + sizes[k, 1] * cos(turn), places[k, 2] + sizes[k, 2] * sin(turn), col = colours[k],
                      border = if (is_marked[k]) "#c0392b" else "#333333", lwd = if (is_marked[k]) 2.4 else 1.2)
  }
  if (nrow(places)) graphics::text(places[, 1], places[, 2], rownames(places))
}
