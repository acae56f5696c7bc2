# The package for JavaScript, of an archive for WebAssembly, which gate_archive.py makes; for bindings/Makefile:
#
#     make -C bindings npm [WASM_ARCHIVE=libperf_event_c.a]
WASM = wasm64-unknown-unknown
WASM_ARCHIVE = $(TOP)/crates/perf_event_c/out/$(WASM)/libperf_event_c.a
# The folder of the two modules, if module.sh has made them of that archive before.
MODULES =
JS = $(HERE)/js
JS_MODULES = perf_event_data.mjs batch.mjs columns.mjs config.mjs entries.mjs features.mjs fields.mjs file.mjs \
    file_frames.mjs file_readers.mjs frames.mjs growing.mjs library.mjs machine.mjs readers.mjs stream.mjs wide.mjs
JS_FILES = $(addprefix $(JS)/,$(JS_MODULES) perf_event_data.d.mts package.json README.md)

$(WASM_ARCHIVE):
	@echo "$@ is absent: run 'rt lib' in crates/perf_event_c and then \
	    'bindings/gate_archive.py crates/perf_event_c/out $(WASM)' at the top, or name another WASM_ARCHIVE" >&2; exit 1

js: $(WASM_ARCHIVE)
	rm -rf $(OUT)/js
	$(if $(MODULES),$(INSTALL) -D -m 644 -t $(OUT)/js $(addprefix $(MODULES)/,module.mjs wide_module.mjs), \
	    $(JS)/module.sh $(WASM_ARCHIVE) "$(KIT)" $(OUT)/js)
	$(INSTALL) -m 644 $(JS_FILES) $(TOP)/CHANGELOG.md $(OUT)/js/

npm: js licences
	cp -R $(OUT)/licences $(OUT)/js/
	cd $(OUT)/js && npm_config_cache=$(abspath $(OUT))/npm-cache npm_config_update_notifier=false \
	    npm pack --offline --silent --pack-destination $(abspath $(OUT)) >/dev/null
	rm -rf $(OUT)/npm-cache
	@echo $(OUT)/perf-event-data-$(VERSION).tgz

.PHONY: js npm
