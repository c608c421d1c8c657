// fuzzylite by a few C functions: engines and texts are made once and lent to what is timed.
#include <fl/Headers.h>

extern "C" {

std::string *shim_text(const char *bytes, size_t length) { return new std::string(bytes, length); }

fl::Engine *shim_engine(const std::string *text) {
    try {
        return fl::FclImporter().fromString(*text);
    } catch (const fl::Exception &fault) {
        fprintf(stderr, "fuzzylite: %s\n", fault.what());
        return nullptr;
    }
}

// How many rules it has, if it is ready to be processed; else 0.
size_t shim_rules(const fl::Engine *engine) {
    std::string status;
    if (!engine->isReady(&status)) {
        fprintf(stderr, "fuzzylite: %s\n", status.c_str());
        return 0;
    }
    size_t loaded = 0;
    for (const fl::Rule *rule : engine->getRuleBlock(0)->rules()) loaded += rule->isLoaded();
    return loaded;
}

size_t shim_import(const std::string *text) {
    fl::Engine *engine = fl::FclImporter().fromString(*text);
    size_t inputs = engine->numberOfInputVariables();
    delete engine;
    return inputs;
}

size_t shim_export(const fl::Engine *engine) { return fl::FclExporter().toString(engine).size(); }

void shim_process(fl::Engine *engine, const double *readings, double *figures) {
    for (size_t i = 0; i < engine->numberOfInputVariables(); i++) engine->getInputVariable(i)->setValue(readings[i]);
    engine->process();
    for (size_t i = 0; i < engine->numberOfOutputVariables(); i++)
        figures[i] = engine->getOutputVariable(i)->getValue();
}
}
