\name{causal_diagram}
\alias{causal_diagram}
\alias{read_diagram}
\alias{as_causal_diagram}
\alias{as_causal_diagram.causal_diagram}
\alias{as_causal_diagram.character}
\alias{as_causal_diagram.dagitty}
\alias{as_causal_diagram.data.frame}
\alias{as_causal_diagram.default}
\alias{as_causal_diagram.igraph}
\alias{as_causal_diagram.matrix}
\alias{as_causal_diagram.tidy_dagitty}
\alias{as.character.causal_diagram}
\alias{format.causal_diagram}
\alias{print.causal_diagram}
\alias{summary.causal_diagram}
\alias{print.summary.causal_diagram}
\title{Causal Diagrams}
\description{
  Makes a diagram from the text of a graph, from a file, or from another object. The library reads the text, or refuses it with
  the place of its first fault.
}
\usage{
causal_diagram(text, format = c("dag", "dot", "gml"), ...)
read_diagram(file, format = NULL, ...)
as_causal_diagram(x, ...)
\method{as_causal_diagram}{matrix}(x, bidirected = NULL, ...)
\method{as_causal_diagram}{data.frame}(x, vertices = character(), ...)
\method{print}{causal_diagram}(x, ...)
\method{summary}{causal_diagram}(object, ...)
}
\arguments{
  \item{text}{the text of a graph, as the \code{dag} text of DAGitty: a character vector, whose elements are lines.}
  \item{file}{the name of a file with such a text in UTF-8, or a connection.}
  \item{format}{the form of the text: \code{"dag"}; \code{"dot"}, a \code{digraph} of Graphviz; or \code{"gml"}. For a file it is told by
    the end of its name (\code{.dot}, \code{.gv}, \code{.gml}) unless it is given.}
  \item{x}{an object to make a diagram of: text; an object of the package \pkg{dagitty}; a tidy diagram of the package
    \pkg{ggdag}; a graph of the package \pkg{igraph}; an adjacency matrix, in which an entry
    other than 0 in row \code{a} and column \code{b} is the edge from \code{a} to \code{b}; or a data frame of edges with the
    columns \code{from} and \code{to}, and \code{edge} (\code{"->"}, \code{"<-"} or \code{"<->"}) where some are
    bidirected. For the method \code{print} a diagram.}
  \item{object}{a diagram.}
  \item{bidirected}{a matrix of the same size, in which an entry other than 0 is a bidirected edge; one entry of the two for a
    pair is enough.}
  \item{vertices}{names of further vertices, in front of those of the edges.}
  \item{...}{for all but the \code{dag} text and objects of dagitty, which have their own marks: \code{exposure}, \code{outcome}, \code{adjusted} and \code{latent}, the names of the
    vertices with these roles. They have to be among those of the edges or in \code{vertices}, so that a typing error makes none.}
}
\details{
  A text is \code{dag \{ .. \}} with statements such as \code{A}, \code{A [exposure]}, \code{A -> B <- C} and
  \code{A <-> B}. A bidirected edge stands for hidden common causes; a hidden vertex may also be drawn and marked
  \code{latent}. Names with spaces, commas or other marks stand between double quotes. Attributes such as \code{pos="1,2"}
  are read and dropped. A graph has at most 64 names and a text at most 1048576 bytes.

  A text of another kind that DAGitty writes, as a \code{pdag}, and comments are refused by name. Where something in a text may be a
  typing error that has cost an edge, a warning of the class \code{causal_doubt} says so: a statement \code{name = value} that was
  dropped (but \code{bb}, which DAGitty writes), and a vertex without an edge whose name is made of signs.

  In a graph of igraph, a DOT text and a GML text a vertex is named by its attribute \code{name} (in GML by \code{label} first), or else
  by its number or identifier. Its attribute \code{role} may be a mark; attributes \code{latent}, \code{exposure} and so on that are true
  mark it, and so does \code{observed} that is false. An edge is bidirected where its attribute \code{bidirected} is true or \code{dir} is
  \code{"both"}, and two edges, one each way, are one that both have the \code{description} \code{"U"}, as the package
  \pkg{causaleffect} has it. Marks of a tidy diagram are those of its columns \code{status} and \code{adjusted}, or else those of the
  object of dagitty that it keeps.

  The library keeps the diagram that was asked last: the first question about a diagram reads its text, and further questions
  about it don't read it again. What is answered is the same.

  Names are Unicode; text in another encoding that R knows is converted. No name has a double quote or a line feed in it.
}
\value{
  A list of the class \code{causal_diagram}: \code{text} as it was given, \code{vertices} (a data frame with \code{name} and
  \code{role}) and \code{edges} (a data frame with \code{from}, \code{edge} and \code{to}, each edge once). \code{format} and
  \code{print} give the graph as the library writes it, \code{as.character} the text as it was given, and \code{summary} the
  numbers of edges and the roles.
}
\seealso{\code{\link{plot.causal_diagram}}, \code{\link{project}}}
\examples{
front_door <- causal_diagram("dag { X [exposure] Y [outcome] X -> M -> Y X <-> Y }")
front_door
summary(front_door)

edges <- data.frame(from = c("stone size", "stone size", "treatment"),
                    to = c("treatment", "recovery", "recovery"))
as_causal_diagram(edges, exposure = "treatment", outcome = "recovery")

adjacency <- matrix(c(0, 1, 0, 0), 2, byrow = TRUE, dimnames = list(c("X", "Y"), c("X", "Y")))
as_causal_diagram(adjacency, bidirected = adjacency)

# Another form
causal_diagram("digraph { U [latent=true]; U -> {X Y}; X -> Y }", format = "dot", exposure = "X")

# A fault has a place
tryCatch(causal_diagram("dag {\n  A -> B\n  B -- C\n}"), causal_fault = conditionMessage)
}
