"""Circuits that are made in several sizes, and how they are mapped by both programs and by ABC."""
