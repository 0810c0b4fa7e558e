"""Measurements of the resolver; nothing here is part of the gate."""
