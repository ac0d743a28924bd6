\name{check_certificate}
\alias{check_certificate}
\title{Is a Derivation Right?}
\description{Judges a certificate of a formula or of a hedge, whoever wrote it.}
\usage{check_certificate(diagram, certificate, experiments = NULL)}
\arguments{
  \item{diagram}{a diagram, or what \code{\link{as_causal_diagram}} takes.}
  \item{certificate}{the text of a certificate, or an answer of \code{\link{identify_effect}} or \code{\link{surrogate}}, or one of
    \code{\link{treated_effect}} or \code{\link{natural_effect}} that was asked for with its certificate.}
  \item{experiments}{the experiments that there are, as in \code{\link{surrogate}}; \code{NULL} for none.}
}
\details{
  Proved: where a formula is accepted, it has no intervention and equals the effect in every positive finite model that fits the
  diagram; where a hedge is accepted, it is one, and two positive models that fit the diagram agree on all observations and
  differ on the effect. With \code{experiments} the terms of an accepted formula may stand under one of them, and the two models
  of an accepted hedge agree under each of them too. Otherwise the first refused step, or the first fault of the hedge, is given. A text that is no certificate is an error of the class \code{causal_certificate_fault}.

  A certificate of an effect among the treated or of a natural effect is in parts, one for each district: a formula for the effect of all other
  variables on it, with its derivation. Proved: where it is accepted, the product of the parts, summed over what isn't asked for, equals the
  effect in every positive finite model that fits the diagram. A fault of the parts is: 1 a treatment is joined to a child of its own,
  2 a vertex or 3 a district reads both values of a treatment, 4 a part is missing, 5 there is one more, 6 it is of another district than
  the one that is due, 7 its derivation isn't accepted.

  The faults of a step are: 1 it needs a term, 2 its sets, 3 the rule's separation doesn't hold (with an open path), 4 its order,
  5 its grouping, 6 no such lemma, 7 no such place, 8 the form of what it is applied to. Fault 9 is that the steps end at
  another formula, 10 that an intervention is left which is none of the experiments. Fault 7 of a hedge is that under one of the
  experiments its models may differ.
}
\value{
  A list of the class \code{causal_judgement}: \code{accepted} (and \code{holds}, the same), with the \code{formula} (a list of
  \code{target}, \code{expression}, \code{definitions}, \code{free} and \code{latex}) or the \code{hedge}; or, where it is refused, \code{fault}, \code{at} (\code{"main"} or a lemma, or a vertex), \code{step} and
  \code{path}, or \code{hedge_fault}. Of a certificate in parts the \code{effect} and the formulas \code{parts}; or \code{parts_fault}, the number of the
  \code{part} from 0, \code{at} (vertices) and the judgement of its \code{derivation}. And the printed \code{text}.
}
\examples{
diagram <- causal_diagram("dag { X -> M -> Y X <-> Y }")
formula <- identify_effect(diagram, "X", "Y")
check_certificate(diagram, formula)
check_certificate("dag { X -> M -> Y X <-> Y X -> Y }", formula)

trial <- "dag { X [exposure] Y [outcome] Z -> X -> Y Z <-> X Z <-> Y }"
check_certificate(trial, surrogate(trial, experiments = "Z"), experiments = "Z")
}
