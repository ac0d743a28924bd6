# Methods for generics of packages that aren't needed: each gets them when its package is loaded, before or after this one.

.onLoad <- function(libname, pkgname) {
  register_with("knitr", list(knit_print = knit_methods))
  register_with("ggplot2", list(autoplot = autoplot_methods))
  register_with("generics", list(tidy = tidy_methods, glance = glance_methods))
  for (package in c("generics", "emmeans", "rms", "lava", "report", "waldo")) when_loaded(package, lead_here)
}

register_with <- function(package, methods) {
  when_loaded(package, function(...) {
    for (generic in names(methods)) for (class in names(methods[[generic]]))
      registerS3method(generic, class, methods[[generic]][[class]], envir = asNamespace(package))
  })
}

when_loaded <- function(package, call) {
  if (isNamespaceLoaded(package)) call(package)
  setHook(packageEvent(package, "onLoad"), call)
}

# Forms of a diagram, by which a generic of another package leads to the call of this one that has its name.
diagram_classes <- c("causal_diagram", "dagitty", "tidy_dagitty", "character", "igraph", "matrix", "data.frame")

# The calls of this package that are generics of another: where that package is attached later its name still leads here. What the
# other package has a method for stays its own.
lead_here <- function(package, ...) {
  theirs <- asNamespace(package)
  for (name in intersect(getNamespaceExports(theirs), own_calls)) {
    generic <- get0(name, theirs, mode = "function")
    if (is.null(body(generic)) || !"UseMethod" %in% all.names(body(generic))) next
    for (class in diagram_classes) {
      if (is.null(utils::getS3method(name, class, optional = TRUE, envir = theirs)))
        registerS3method(name, class, get(name, environment(lead_here)), envir = theirs)
    }
  }
}

# The calls that begin with a diagram.
own_calls <- c("project", "separated", "is_separated", "rule_holds", "identify_effect", "is_identifiable", "treated_effect", "natural_effect", "surrogate",
               "check_certificate", "adjustment_sets", "adjusts", "is_admissible", "instruments", "equivalent", "implications", "counts_query", "evaluate",
               "bounds_effect", "contrast", "effect_means", "pin_spread", "test_implications", "support", "estimate", "mediate", "compare", "report", "parents", "children",
               "ancestors", "descendants", "paths", "direct_effect")
