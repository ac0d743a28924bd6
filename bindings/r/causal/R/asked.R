# How an effect in data is asked for: by the formula of the diagram, also under a condition or a short one, by that of a set to adjust
# for, or by that of `treated`, or two levels in its place. `words` are those of `evaluate`, and `formula` the one whose values it gives, with its `trees`.

asked_of <- function(diagram, x, y, set = NULL, given = NULL, back_door = FALSE, zero = FALSE, short = FALSE, treated = FALSE, among = NULL) {
  diagram <- as_causal_diagram(diagram)
  if (isTRUE(treated) || !is.null(among)) return(asked_over_treated(diagram, x, y, set, given, back_door, among))
  check_exposures(diagram, x)
  condition <- condition_of(given)
  if (!is.null(set) && length(given)) refuse("an effect is asked for by a set to adjust for, or under a condition, and not both")
  if (!is.null(set) && isTRUE(short)) refuse("an effect is asked for by a set to adjust for, or by a short formula, and not both")
  if (is.null(set) && isTRUE(back_door)) refuse("the back-door criterion is asked of a set: `set` names it")
  words <- c(option("x", x), option("y", y))
  words <- if (is.null(set)) c(words, option("given", condition$names), flag("short", short))
           else c(words, option("set", as.character(set)), flag("back-door", back_door))
  told <- ask(if (is.null(set)) "identify" else "adjust", diagram, words, certificate = is.null(set))
  object <- object_of(told)
  if (!told$yes && is.null(set)) stop(not_identifiable(new_hedge(object, told, diagram)))
  if (!told$yes) refuse("this set can't be adjusted for: ", text_of(told$asked, diagram), kind = "not_admissible")
  list(diagram = diagram, words = c(words, flag("zero", zero)), formula = read_formula(object), trees = read_trees(object),
       x = if (is.null(x)) has_role(diagram, "exposure") else as.character(x), typed = !is.null(x),
       y = if (is.null(y)) has_role(diagram, "outcome") else as.character(y), given = condition$names, levels = condition$levels,
       set = set, zero = isTRUE(zero), short = isTRUE(short))
}

# The effect among those for whom each level of the exposures was observed, or the levels `among`. What is given has the observed levels too,
# under their second names (`observed`, by exposure).
asked_over_treated <- function(diagram, x, y, set, given, back_door, among) {
  if (!is.null(set) || isTRUE(back_door)) refuse("an effect among the treated goes by its own formula: it is asked for without `set` and `back_door`")
  asked <- asked_among(diagram, x, y, given, among, by_levels = TRUE)
  condition <- option("given", asked$given)
  if (!is.null(among)) asked$levels <- c(asked$levels, observed_levels(asked, among))
  asked$given <- c(asked$given, unname(asked$observed))
  asked$zero <- FALSE
  c(asked, list(words = c(option("x", x), option("y", y), condition, "--treated")))
}

# The levels that were observed, by second name: named by their exposures, or in the order of these as they were typed.
observed_levels <- function(asked, among) {
  among <- as.list(among)
  if (is.null(names(among))) names(among) <- order_of_arm(among, asked, asked$x)
  if (!setequal(names(among), asked$x)) refuse("`observed` has one level of each of ", paste(asked$x, collapse = ", "))
  stats::setNames(among[asked$x], unname(asked$observed[asked$x]))
}

# Without an exposure the answer would be the outcome's distribution as it is, which nobody asks for by an oversight.
check_exposures <- function(diagram, x) {
  if (is.null(x) && !length(has_role(diagram, "exposure")))
    refuse("no exposure is marked in the diagram and `x` names none; x = character() asks for the outcome where nothing is done", kind = "no_exposure")
}

# A condition: names of which all levels are wanted, or levels by name of which one is.
condition_of <- function(given) {
  if (is.null(names(given))) return(list(names = if (is.null(given)) NULL else as.character(given), levels = list()))
  named <- nzchar(names(given))
  list(names = ifelse(named, names(given), as.character(unlist(lapply(given, `[`, 1)))), levels = as.list(given)[named])
}

# Which cells of effects have the levels that were asked for, of the condition and of the outcome.
wanted_cells <- function(effects, table, asked, outcome = NULL) {
  if (!is.null(outcome) && is.null(names(outcome))) {
    if (length(asked$y) != 1) refuse("`outcome` names its level for each outcome where there are several: list(", asked$y[1], " = ..)")
    outcome <- stats::setNames(list(outcome), asked$y)
  }
  wanted <- c(as.list(outcome), asked$levels)
  keep <- rep(TRUE, length(effects$y))
  for (name in names(wanted)) {
    if (!name %in% c(asked$y, asked$given)) refuse(name, " is no outcome", meant(name, asked$y))
    places <- vapply(wanted[[name]], function(level) {
      place <- place_of_level(table$levels[[name]], level)
      if (is.na(place)) no_level(name, as.character(level), level_labels(table$levels[[name]]))
      place
    }, 1L)
    keep <- keep & vapply(seq_along(keep), function(k) as.integer(c(effects$y[[k]], effects$given[[k]])[[name]]) %in% places, NA)
  }
  keep
}

# What is divided by at the node at which a formula has no value: see `divisors_of`. NULL where nothing is.
divisor_at <- function(trees, fault) {
  nodes <- divisors_of(trees)
  nodes[[if (fault$expression == "main") length(nodes) else as.integer(substring(fault$expression, 2)) + 1]][[fault$node + 1]]
}

# The nodes of each tree, of which one may cite those before it by their numbers, in the order in which they are numbered: a
# parent before its parts. Where something is divided by there, a term whose condition has this share, or none for the divisor of
# a quotient, and the names on whose levels it depends; else NULL.
divisors_of <- function(trees) {
  found <- list()
  for (tree in trees) found <- c(found, list(nodes_of(tree, lapply(found, `[[`, "names"))))
  lapply(found, `[[`, "nodes")
}

# The nodes of a tree, and the names on which it depends; those of definitions are told.
nodes_of <- function(tree, behind) {
  if (!is.null(tree$definition)) return(list(nodes = list(NULL), names = behind[[tree$definition + 1]]))
  if (!is.null(tree$term)) {
    given <- texts(tree$given)
    node <- list(term = term_text(texts(tree$term), given = given), names = given)
    return(list(nodes = list(node), names = c(texts(tree$term), given)))
  }
  parts <- lapply(c(if (!is.null(tree$of)) list(tree$of), tree$product, tree$quotient), nodes_of, behind)
  head <- if (!is.null(tree$quotient)) list(names = parts[[2]]$names)
  list(nodes = c(list(head), unlist(lapply(parts, `[[`, "nodes"), recursive = FALSE)),
       names = setdiff(unlist(lapply(parts, `[[`, "names")), texts(tree$sum)))
}
