//! ndigo as from the command line. A module for each idea.
mod answers;
mod batch;
mod bed;
mod book;
mod common;
mod deeper;
mod examples;
mod haplotypes;
mod jobs;
mod library;
mod messages;
mod moves;
mod paths;
mod people;
mod pictures;
mod warnings;
