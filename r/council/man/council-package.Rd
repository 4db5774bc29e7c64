\name{council-package}
\alias{council-package}
\docType{package}
\title{Power indices of weighted voting games}
\description{
The package has one function, \code{\link{council}}. It calls the library \code{libcouncil.so} of the same
release, or runs the program \command{council}, which must be on the PATH.
}
\author{The project council}
\keyword{package}
