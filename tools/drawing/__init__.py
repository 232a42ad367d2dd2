"""Pictures of traces: what `tools/draw-trace` is made of."""
