#[derive(Clone, Copy, Debug, PartialEq, Eq)]
pub enum OutputFormat {
    Esm,
    Cjs,
    Iife,
    Umd,
}

impl OutputFormat {
    #[inline]
    pub fn keep_esm_import_export_syntax(&self) -> bool {
        matches!(self, OutputFormat::Esm)
    }
}

#[derive(Clone, Copy, Debug)]
pub enum PropertyWriteSideEffects {
    Always,
    False,
}

/// The answers of the questions that are asked, each free of the others as in a graph's options.
#[derive(Clone, Debug)]
pub struct TreeshakeOptions {
    pub enabled: bool,
    pub commonjs: bool,
    pub property_write_side_effects: PropertyWriteSideEffects,
}

impl TreeshakeOptions {
    #[inline]
    pub fn is_some(&self) -> bool {
        self.enabled
    }

    #[inline]
    pub fn commonjs(&self) -> bool {
        self.commonjs
    }

    #[inline]
    pub fn property_write_side_effects(&self) -> PropertyWriteSideEffects {
        self.property_write_side_effects
    }
}

#[derive(Clone, Debug)]
pub struct OptimizationOptions {
    pub inline_const_smart: bool,
}

impl OptimizationOptions {
    #[inline]
    pub fn is_inline_const_smart_mode(&self) -> bool {
        self.inline_const_smart
    }
}

#[derive(Clone, Copy, Debug)]
pub struct CodeSplitting {
    pub disabled: bool,
}

impl CodeSplitting {
    #[inline]
    pub fn is_disabled(&self) -> bool {
        self.disabled
    }
}

#[derive(Clone, Debug)]
pub struct NormalizedBundlerOptions {
    pub treeshake: TreeshakeOptions,
    pub optimization: OptimizationOptions,
    pub code_splitting: CodeSplitting,
    pub format: OutputFormat,
    pub preserve_modules: bool,
    pub dev_mode: bool,
}

impl NormalizedBundlerOptions {
    #[inline]
    pub fn is_dev_mode_enabled(&self) -> bool {
        self.dev_mode
    }
}
