pub struct ValidateError;
