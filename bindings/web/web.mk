# The page that opens recordings, one HTML file; for bindings/Makefile:
#
#     make -C bindings web [WASM_ARCHIVE=libperf_event_c.a]
web: js licences
	node $(HERE)/web/build.mjs $(OUT)/js $(OUT)/perf-view.html $(OUT)/licences

.PHONY: web
